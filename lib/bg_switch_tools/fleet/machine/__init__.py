"""What the switch of one machine is to do by the record of its fleet."""
