//! The host crate declares this module; its file is not among the originals, and nothing of it is compared.
