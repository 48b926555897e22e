"""The modules of `python3 tools/wrong_bodies`: the sources of a crate, the edits, which of them the
gate tries, the prover's checks and their verdicts."""
