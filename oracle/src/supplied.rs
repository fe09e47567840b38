//! What the files of gatk-rs name and their published part leaves out.
//! None of it runs in the calls compared: errors are only built where a graph has no reference source
//! or sink, and in the check of k-mer graphs, which is told by their text; every function below would panic.

#[derive(Debug, Clone)]
pub struct GatkError(pub String);

pub type GatkResult<T> = Result<T, GatkError>;

impl GatkError {
    pub fn algorithm(text: impl Into<String>) -> Self {
        GatkError(text.into())
    }

    pub fn invalid_argument(name: &str, text: impl Into<String>) -> Self {
        GatkError(format!("{name}: {}", text.into()))
    }
}

/// Stands for gatk_core's type, which `bio_ids.rs` only hands on.
#[derive(Debug, Clone, Copy)]
pub struct MappingQuality;

pub mod genome_loc {
    /// `bio_ids.rs` asserts that it is as large as a u64.
    #[derive(Debug, Clone, Copy, PartialEq, Eq)]
    pub struct GenomePosition(pub u64);
}

pub mod cigar {
    #[derive(Debug, Clone)]
    pub struct Cigar;
}

pub mod read_threading_graph {
    use crate::assembly::{AssemblyGraph, AssemblyGraphParams, AssemblyRead};

    pub fn assembly_graph_from_reads_threading(
        _: &[AssemblyRead],
        _: &AssemblyGraphParams,
    ) -> crate::GatkResult<AssemblyGraph> {
        unreachable!("no call compared builds a graph from reads")
    }
}

pub mod assembly_pruning {
    use crate::assembly::{AssemblyGraph, AssemblyGraphPruningParams};

    pub fn apply_gatk_pruning(_: &mut AssemblyGraph, _: &AssemblyGraphPruningParams) -> u32 {
        unreachable!("no call compared prunes")
    }
}

pub mod read_threading_assembler {
    use crate::assembly::AssemblyRead;

    #[derive(Default)]
    pub struct ReadThreadingAssemblerArgs {
        pub kmer_sizes: Vec<usize>,
        pub min_base_quality: u8,
        pub min_prune_factor: u32,
        pub num_best_haplotypes_per_graph: usize,
    }

    pub struct AssembledHaplotype {
        pub bases: Vec<u8>,
        pub score: f64,
    }

    pub struct Assembled {
        pub haplotypes: Vec<AssembledHaplotype>,
    }

    pub fn assemble_from_ref_and_reads(
        _: &AssemblyRead,
        _: &[AssemblyRead],
        _: &ReadThreadingAssemblerArgs,
    ) -> crate::GatkResult<Assembled> {
        unreachable!("no call compared assembles")
    }
}
