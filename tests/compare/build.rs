//! Writes the table of those calls of calls.txt that are linked: the crate
//! grillsonnet, which links the proved library's archive, says which it has.

use std::path::{Path, PathBuf};

fn main() {
    println!("cargo::rerun-if-changed=calls.txt");
    println!("cargo::rerun-if-changed=build.rs");
    let told = |name: &str| std::env::var(name).expect("the crate grillsonnet tells it");
    let archive = PathBuf::from(told("DEP_CAPI_ARCHIVE"));
    let symbols: Vec<String> = told("DEP_CAPI_CALLS").split(' ').map(str::to_string).collect();
    let table = std::fs::read_to_string("calls.txt").expect("calls.txt");
    let calls: Vec<Call> = table.lines().filter_map(Call::parse).collect();
    let out = PathBuf::from(std::env::var("OUT_DIR").expect("OUT_DIR")).join("linked.rs");
    std::fs::write(out, linked(&archive, &calls, &symbols)).expect("linked.rs");
}

struct Call {
    symbol: String,
    operands: Vec<String>,
    numbers: Vec<String>,
}

impl Call {
    fn parse(line: &str) -> Option<Call> {
        if line.starts_with('#') || line.trim().is_empty() {
            return None;
        }
        let mut fields = line.split(';').map(str::trim);
        let mut words = || -> Vec<String> {
            let field = fields.next().expect("three fields");
            field.split_whitespace().map(str::to_string).collect()
        };
        Some(Call { symbol: words().remove(0), operands: words(), numbers: words() })
    }

    fn has(&self, operand: &str) -> bool {
        self.operands.iter().any(|each| each == operand)
    }

    /// A function that hands the slices over and gives the answer as the one
    /// number that the library gave.
    fn code(&self) -> String {
        let Call { symbol, operands, .. } = self;
        let function = symbol.strip_prefix("z_").expect("a call is called z_*");
        let given: Vec<String> = operands.iter().map(|operand| format!("s.{operand}")).collect();
        format!(
            "fn call_{symbol}(s: &mut Slices) -> u64 {{ grillsonnet::{function}({}).code() }}\n",
            given.join(", ")
        )
    }

    fn row(&self) -> String {
        let Call { symbol, numbers, .. } = self;
        format!(
            "    Call {{ name: \"{symbol}\", function: call_{symbol}, expected: crate::expected::{symbol}, \
             reference: crate::timed::{symbol}, \
             dictionary: {}, work: {}, output: {}, numbers: &[{}] }},\n",
            self.has("dictionary"),
            self.has("work"),
            self.has("output"),
            numbers.join(", ")
        )
    }
}

fn linked(archive: &Path, calls: &[Call], symbols: &[String]) -> String {
    let (there, absent): (Vec<&Call>, Vec<&Call>) =
        calls.iter().partition(|call| symbols.contains(&call.symbol));
    let mut code = String::new();
    there.iter().for_each(|call| code += &call.code());
    code += &format!("pub const ARCHIVE: &str = {:?};\n", archive.display().to_string());
    let names: Vec<&str> = absent.iter().map(|call| call.symbol.as_str()).collect();
    code += &format!("pub const NOT_LINKED: &[&str] = &{names:?};\n");
    code += "pub const CALLS: &[Call] = &[\n";
    there.iter().for_each(|call| code += &call.row());
    code + "];\n"
}
