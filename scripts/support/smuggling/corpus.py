"""All messages of the corpus, in the order of their sections."""
from support.smuggling import chunks, codings, connections, heads, lengths
from support.smuggling.messages import Message


def corpus() -> tuple[Message, ...]:
    """Each message once: of those with the same bytes, the first one."""
    messages = dict[bytes, Message]()
    for part in (lengths, codings, chunks, heads, connections):
        for message in part.messages():
            messages.setdefault(message.text, message)
    return tuple(messages.values())
