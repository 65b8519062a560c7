//! Integer divisions: instructions `div` and `idiv` of x86, found in this program by objdump, and how often callgrind saw them.

use crate::count::not_run;
use std::collections::HashSet;
use std::path::Path;
use std::process::Command;

/// The divisions of a program.
pub struct Divisions {
    program: String,
    addresses: HashSet<u64>,
}

impl Divisions {
    /// Looks for them in a program.
    pub fn of(program: &Path) -> Result<Divisions, String> {
        if !cfg!(any(target_arch = "x86", target_arch = "x86_64")) {
            return Err("divisions are counted on x86 alone".into());
        }
        let output = Command::new("objdump").args(["-d", "--no-show-raw-insn"]).arg(program).output();
        let output = output.map_err(|error| not_run("objdump", &error))?;
        if !output.status.success() {
            return Err(format!("objdump:\n{}", String::from_utf8_lossy(&output.stderr)));
        }
        let listing = String::from_utf8_lossy(&output.stdout);
        Ok(Divisions::listed(&program.display().to_string(), &listing))
    }

    /// Those that objdump lists.
    fn listed(program: &str, listing: &str) -> Divisions {
        Divisions { program: program.to_string(), addresses: listing.lines().filter_map(division).collect() }
    }

    /// How many were executed, by the profile that callgrind leaves; `None` if it has nothing of the program.
    pub fn executed(&self, profile: &str) -> Option<u64> {
        let (mut inside, mut known, mut sum) = (false, false, 0);
        let mut lines = profile.lines();
        while let Some(line) = lines.next() {
            if let Some(object) = line.strip_prefix("ob=") {
                inside = object == self.program;
                known |= inside;
            } else if line.starts_with("calls=") {
                // behind it stands what the whole call took
                lines.next();
            } else if let Some((address, count)) = cost(line)
                && inside
                && self.addresses.contains(&address)
            {
                sum += count;
            }
        }
        known.then_some(sum)
    }
}

/// The address of a line of objdump's, `ADDRESS:<tab>NAME OPERANDS`, if it is a division.
fn division(line: &str) -> Option<u64> {
    let (address, instruction) = line.split_once(":\t")?;
    let name = instruction.split_whitespace().next()?;
    let divides = matches!(name.strip_suffix(['b', 'w', 'l', 'q']).unwrap_or(name), "div" | "idiv");
    if divides { u64::from_str_radix(address.trim(), 16).ok() } else { None }
}

/// The address and the count of a line of callgrind's, `0xADDRESS LINE COUNT`.
fn cost(line: &str) -> Option<(u64, u64)> {
    let mut words = line.strip_prefix("0x")?.split(' ');
    let address = u64::from_str_radix(words.next()?, 16).ok()?;
    Some((address, words.nth(1)?.parse().ok()?))
}

#[cfg(test)]
mod tests {
    use super::Divisions;

    const LISTING: &str = "\
bench:     file format elf64-x86-64

0000000000001000 <divide>:
    1000:\txor    %edx,%edx
    1002:\tdiv    %rsi
    1005:\tidivl  0x8(%rsp)
    1009:\tdivsd  %xmm1,%xmm0
    100d:\tfdivl  (%rax)
    100f:\tret
";

    #[test]
    fn only_divisions_of_whole_numbers_are_found() {
        let mut addresses: Vec<u64> = Divisions::listed("bench", LISTING).addresses.into_iter().collect();
        addresses.sort_unstable();
        assert_eq!(addresses, [0x1002, 0x1005]);
    }

    #[test]
    fn only_those_of_the_program_are_counted_and_no_whole_calls() {
        let divisions = Divisions::listed("/a/bench", LISTING);
        let profile = "\
events: Ir

ob=/lib/libc.so.6
fn=memset
0x1002 0 1000

ob=/a/bench
fn=divide
0x1000 0 7
0x1002 0 5
cob=/lib/libc.so.6
cfn=memset
calls=1 0x1002 0
0x1005 0 100
0x1005 12 2

fn=other
0x100f 0 9
0x1002 3 30

totals: 1153
";
        assert_eq!(divisions.executed(profile), Some(37));
        assert_eq!(divisions.executed("ob=/a/bench\n"), Some(0));
        assert_eq!(divisions.executed("ob=/a/bench_reference\n0x1002 0 1\n"), None);
    }
}
