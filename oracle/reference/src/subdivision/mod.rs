//! Stand-in for the module file, which is not among the files of docs/src: it only names the two that are.
mod cubical;
mod simplicial;
