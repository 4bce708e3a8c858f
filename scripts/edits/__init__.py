"""Must-fail edits that are tried in rounds: what they change, which of them one check can judge,
and what the prover says."""
