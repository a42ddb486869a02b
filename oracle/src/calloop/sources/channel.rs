// Declared by the given sources and used by none of them, so left empty.
