"""Runs the functions of assemble.py in Rust, Go and Java: what tests/instructions does with a compiler of C, in these."""
import subprocess

# What no form but that of C can tell: address 0 is a place of the stack, and a frame is tested where it is read or written.
NO_TRAPS = {"read_nothing", "frame_too_large"}
EDGES = ("0 1 2 7 8 31 32 63 64 127 128 255 32767 32768 65535 65536 2147483647 2147483648 4294967295 4294967296 9223372036854775808 "
         "9223372036854775807 18446744073709551615 18446744073709551614 1311768467463790320 18364758544493064720 "
         "18446744071562067968 18446744073709551488 18446744073709518848").split()

RUST = """
type Operation = fn(&mut [u8], u64, u64, u64) -> u64;
const EDGES: &[u64] = &[@EDGES@];
const OPERATIONS: &[(&str, Operation)] = &[@OPERATIONS@];
const ACCESSES: &[(&str, Operation)] = &[@ACCESSES@];
const TRAPPED: u64 = 0xdeaddeaddeaddead;

fn answer(operation: Operation, a: u64, b: u64) -> u64 {
    std::panic::catch_unwind(|| operation(&mut [0; 4096], 4096, a, b)).unwrap_or(TRAPPED)
}

fn main() {
    std::panic::set_hook(Box::new(|_| {}));
    for (name, operation) in OPERATIONS {
        let mut hash = 0xcbf29ce484222325u64;
        for a in EDGES {
            for b in EDGES {
                hash = (hash ^ answer(*operation, *a, *b)).wrapping_mul(0x100000001b3);
            }
        }
        println!("{name} {hash:016x}");
    }
    for (name, operation) in ACCESSES {
        if answer(*operation, 1, 2) != TRAPPED {
            println!("{name} is no trap");
        }
    }
}
"""
GO = """
type operation struct {
	name string
	run  func(m []byte, g, a, b uint64) uint64
}

var edges = []uint64{@EDGES@}
var operations = []operation{@OPERATIONS@}
var accesses = []operation{@ACCESSES@}

const trapped = 0xdeaddeaddeaddead

func answer(it operation, a, b uint64) (found uint64) {
	defer func() {
		if recover() != nil {
			found = trapped
		}
	}()
	return it.run(make([]byte, 4096), 4096, a, b)
}

func main() {
	for _, it := range operations {
		hash := uint64(0xcbf29ce484222325)
		for _, a := range edges {
			for _, b := range edges {
				hash = (hash ^ answer(it, a, b)) * 0x100000001b3
			}
		}
		fmt.Printf("%s %016x\\n", it.name, hash)
	}
	for _, it := range accesses {
		if answer(it, 1, 2) != trapped {
			fmt.Println(it.name, "is no trap")
		}
	}
}
"""
JAVA = """
    private interface Operation {
        long run(byte[] m, long g, long a, long b);
    }

    private static final long[] EDGES = {@EDGES@};
    private static final String[] NAMES = {@NAMES@};
    private static final Operation[] OPERATIONS = {@OPERATIONS@};
    private static final String[] ACCESS_NAMES = {@ACCESS_NAMES@};
    private static final Operation[] ACCESSES = {@ACCESSES@};
    private static final long TRAPPED = 0xdeaddeaddeaddeadL;

    private static long answer(Operation operation, long a, long b) {
        try {
            return operation.run(new byte[4096], 4096, a, b);
        } catch (RuntimeException e) {
            return TRAPPED;
        }
    }

    public static void main(String[] words) {
        for (int i = 0; i < NAMES.length; i++) {
            long hash = 0xcbf29ce484222325L;
            for (long a : EDGES) {
                for (long b : EDGES) {
                    hash = (hash ^ answer(OPERATIONS[i], a, b)) * 0x100000001b3L;
                }
            }
            System.out.println(NAMES[i] + " " + String.format("%016x", hash));
        }
        for (int i = 0; i < ACCESS_NAMES.length; i++) {
            if (answer(ACCESSES[i], 1, 2) != TRAPPED) {
                System.out.println(ACCESS_NAMES[i] + " is no trap");
            }
        }
    }
"""
# Of each language: the program, an item of a list, a number, and what builds and runs NAME.ENDING.
LANGUAGES = {
    "rust": ("rs", RUST, '("{0}", of_{0})', "{0}", ["rustc --edition 2021 -C opt-level=1 -o {1}/program {0}", "{1}/program"]),
    "go": ("go", GO, '{{"{0}", of_{0}}}', "{0}", ["go build -o {1}/program {0}", "{1}/program"]),
    "java": ("java", JAVA, "@CLASS@::of_{0}", "0x{0:x}L", ["javac --release 11 -d {1} {0}", "java -cp {1} bech32proved.{2}"]),
}


def calls(language, stem, functions, accesses):
    """The program, in the place of the calls of a library."""
    _, text, item, number, _ = LANGUAGES[language]
    accesses = [it for it in accesses if it not in NO_TRAPS]
    lists = {"EDGES": [number.format(int(it)) for it in EDGES], "OPERATIONS": [item.format(it) for it in functions],
             "ACCESSES": [item.format(it) for it in accesses], "NAMES": [f'"{it}"' for it in functions],
             "ACCESS_NAMES": [f'"{it}"' for it in accesses]}
    for name, items in lists.items():
        text = text.replace(f"@{name}@", ", ".join(items).replace("@CLASS@", stem.capitalize()))
    return text


def files(language, stem):
    """The names of the calls and of what is written of them."""
    ending = LANGUAGES[language][0]
    return f"{stem}_calls.{ending}", f"{stem.capitalize() if language == 'java' else stem}.{ending}"


def ran(language, work, file):
    """What the program prints."""
    path = work / file
    if language == "go":
        text = path.read_text().replace(f"package {path.stem}", "package main").replace("import (", 'import (\n\t"fmt"', 1)
        path.write_text(text)
    *build, run = [it.format(path, work, path.stem) for it in LANGUAGES[language][4]]
    for words in build:
        subprocess.run(words.split(), check=True, cwd=work)
    return subprocess.run(run.split(), stdout=subprocess.PIPE, text=True, cwd=work)
