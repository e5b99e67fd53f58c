//! Stand-in for oxc_diagnostics: a diagnostic with all the parts by which the
//! environment tells two of them apart.

pub use oxc_span::LabeledSpan;
use std::borrow::Cow;

/// How grave a diagnostic is.
#[derive(Debug, Clone, Copy, PartialEq, Eq, Default)]
pub enum Severity {
    Advice,
    Warning,
    #[default]
    Error,
}

/// The rule's scope and number; none of ours carries one.
#[derive(Debug, Clone, PartialEq, Eq, Default)]
pub struct OxcCode {
    pub scope: Option<Cow<'static, str>>,
    pub number: Option<Cow<'static, str>>,
}

/// One diagnostic.
#[derive(Debug, Clone, PartialEq, Eq, Default)]
pub struct OxcDiagnostic {
    pub message: Cow<'static, str>,
    pub labels: Vec<LabeledSpan>,
    pub help: Option<Cow<'static, str>>,
    pub note: Option<Cow<'static, str>>,
    pub severity: Severity,
    pub code: OxcCode,
    pub url: Option<Cow<'static, str>>,
}

impl OxcDiagnostic {
    fn new(message: Cow<'static, str>, severity: Severity) -> Self {
        Self { message, severity, ..Self::default() }
    }
    pub fn error<T: Into<Cow<'static, str>>>(message: T) -> Self {
        Self::new(message.into(), Severity::Error)
    }
    pub fn warn<T: Into<Cow<'static, str>>>(message: T) -> Self {
        Self::new(message.into(), Severity::Warning)
    }
    pub fn with_help<T: Into<Cow<'static, str>>>(mut self, help: T) -> Self {
        self.help = Some(help.into());
        self
    }
    /// Replaces the labels, as the original does.
    pub fn with_labels<L: Into<LabeledSpan>, T: IntoIterator<Item = L>>(mut self, labels: T) -> Self {
        self.labels = labels.into_iter().map(Into::into).collect();
        self
    }
    pub fn with_label<T: Into<LabeledSpan>>(mut self, label: T) -> Self {
        self.labels = vec![label.into()];
        self
    }
}

/// The list of errors gathered by an environment; no instruction touches it.
#[derive(Debug, Clone, Default)]
pub struct Diagnostics(Vec<OxcDiagnostic>);

impl Diagnostics {
    pub fn new() -> Self {
        Self(Vec::new())
    }
    pub fn push(&mut self, diagnostic: OxcDiagnostic) {
        self.0.push(diagnostic);
    }
    pub fn is_empty(&self) -> bool {
        self.0.is_empty()
    }
    pub fn iter(&self) -> std::slice::Iter<'_, OxcDiagnostic> {
        self.0.iter()
    }
}

impl From<Vec<OxcDiagnostic>> for Diagnostics {
    fn from(list: Vec<OxcDiagnostic>) -> Self {
        Self(list)
    }
}

impl IntoIterator for Diagnostics {
    type Item = OxcDiagnostic;
    type IntoIter = std::vec::IntoIter<OxcDiagnostic>;
    fn into_iter(self) -> Self::IntoIter {
        self.0.into_iter()
    }
}
