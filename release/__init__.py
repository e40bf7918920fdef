"""Ready programs: what they are built from, how they are linked, packed and unpacked."""
