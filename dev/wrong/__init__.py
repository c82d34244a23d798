"""The trials of wrong bodies: which functions an edit turns, copies of a crate for their proofs, and what the prover says."""
