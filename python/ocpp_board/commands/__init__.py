"""The commands of `ocpp-board`, a module each: `add_words` has its words, `run` does its work."""
