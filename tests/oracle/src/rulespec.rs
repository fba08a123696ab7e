//! A stand-in for the original's module of this name, which is not at hand. Nothing under test reaches it.

use serde::{Deserialize, Serialize};

#[derive(Debug, thiserror::Error)]
#[error("a stand-in")]
pub struct RuleSpecError;

#[derive(Clone, Debug, Serialize, Deserialize)]
pub struct SourceVerification {
    pub corpus_citation_path: String,
    pub source_sha256: Option<String>,
}

#[derive(Clone, Debug, Serialize, Deserialize)]
pub struct ModuleMetadata {
    pub source_verification: Option<SourceVerification>,
}

impl ModuleMetadata {
    pub fn validate(&self, _: &str) -> Result<(), RuleSpecError> {
        unreachable!("a stand-in")
    }
}

pub fn validate_module_target(_: &str) -> Result<(), RuleSpecError> {
    unreachable!("a stand-in")
}

pub fn is_relation_entity_kind_label(_: &str) -> bool {
    unreachable!("a stand-in")
}

pub fn is_canonical_corpus_citation_path(_: &str) -> bool {
    unreachable!("a stand-in")
}
