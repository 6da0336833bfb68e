"""The Cargo workspace around the exported files."""
import filecmp
import os
import shutil

HERE = os.path.dirname(os.path.abspath(__file__))
# The libraries by version. What a crate of the registry has and Rattle's has not is not used.
LIBRARIES = {
    "arrayvec": 'arrayvec = { version = "0.7", default-features = false }',
    "byteorder": 'byteorder = { version = "1", default-features = false }',
    "memchr": 'memchr = { version = "2", default-features = false }',
    "itoa": 'itoa = { version = "1", default-features = false }',
    "hex": 'hex = { package = "rattle_hex", path = "../../shims/hex" }',
    "rand_core": 'rand_core = { package = "rattle_rand_core", path = "../../shims/rand_core" }',
    "rand_pcg": 'rand_pcg = { version = "0.3", default-features = false }',
    "serde": 'serde = { version = "1", default-features = false }',
    "serde_json": 'serde_json = { package = "rattle_serde_json", path = "../../shims/serde_json" }',
    "strsim": 'strsim = { package = "rattle_strsim", path = "../../shims/strsim" }',
    "toml": 'toml = { package = "rattle_toml", path = "../../shims/toml" }',
}
# What the example of a firmware is made from.
FIRMWARE = {"meter_node", "coordinator"}
# The file that says what an export took out, and so that a folder is one.
COUNTS = "counts.tsv"
# The settings of cargo.
CONFIG = os.path.join(".cargo", "config.toml")
# Names of lines of crates.txt that need no dependency in Rust. What `thiserror` derives is written out (derives.py).
OF_THE_LANGUAGE = {"core", "thiserror"}
PROFILES = """
# The proof excludes each overflow; the checks stay, so that a slip of a compiler or of an unchecked caller stops the node.
[profile.release]
overflow-checks = true
# Each crate is compiled once and whole: by fewer seconds of a processor, to a faster program.
codegen-units = 1

# For a small processor.
[profile.small]
inherits = "release"
opt-level = "s"
lto = true
panic = "abort"
codegen-units = 1
"""


def read_crates(repository):
    """What each crate of the repository stands on, by crates.txt. A static library is an ordinary one in Rust: node_c gives C its calls."""
    stands_on = {}
    with open(os.path.join(repository, "crates.txt"), encoding="utf-8") as lines:
        for line in lines:
            line = line.split("#")[0].strip()
            if line:
                name, _, rest = line.partition(":")
                stands_on[name.split()[0]] = rest.split()
    return stands_on


def without_form(name, stands_on):
    """The libraries of a crate that have no form in Rust here."""
    return [it for it in stands_on[name] if it not in stands_on and it not in LIBRARIES and it not in OF_THE_LANGUAGE]


def closure(names, stands_on):
    """The crates of the repository that these are made from."""
    return [it for it in stands_on if it in names or any(it in stands_on[name] for name in names)]


def manifest(name, used, stands_on, is_program):
    """The Cargo.toml of a crate."""
    lines = ["[package]", f'name = "{name}"', 'version = "0.0.0"', 'edition = "2024"', "publish = false", ""]
    lines += ["[dependencies]", 'rattle_std = { path = "../../shims/rattle_std" }']
    for it in sorted(used - OF_THE_LANGUAGE):
        if it not in LIBRARIES and it not in stands_on:
            raise KeyError(f"{name} stands on {it}, for which there is no crate in Rust")
        lines.append(LIBRARIES.get(it) or f'{it} = {{ path = "../{it}" }}')
    if is_program:
        lines += ["", "[features]", 'default = ["rattle_std/std"]']
    return "\n".join(lines) + "\n"


def is_free(target):
    """Whether nothing lies in a folder but an earlier export, which has its counts."""
    return not os.path.exists(target) or not os.listdir(target) or os.path.exists(os.path.join(target, COUNTS))


def lay_out(target, names, extra):
    """Writes what stands around the exported crates."""
    shutil.copytree(os.path.join(HERE, "shims"), os.path.join(target, "shims"), ignore=shutil.ignore_patterns("target", "Cargo.lock"))
    os.makedirs(os.path.join(target, ".cargo"))
    shutil.copy(os.path.join(HERE, "config.toml"), os.path.join(target, CONFIG))
    if FIRMWARE <= set(names):
        shutil.copytree(os.path.join(HERE, "firmware"), os.path.join(target, "firmware"))
        extra = ["firmware", *extra]
    members = ", ".join(f'"{it}"' for it in [f"crates/{it}" for it in names] + extra)
    with open(os.path.join(target, "Cargo.toml"), "w", encoding="utf-8") as file:
        file.write(f'[workspace]\nresolver = "2"\nmembers = [{members}]\n{PROFILES}')


def files_of(folder):
    """The files of a folder, as paths from there."""
    return {os.path.relpath(os.path.join(at, it), folder) for at, _, files in os.walk(folder) for it in files}


def move_in(new, target):
    """Puts an export in the place of an earlier one. A file that is the same stays as it is, so that cargo builds only what changed; a firmware and
    settings of cargo that are there stay too, since the user of the export may have changed them."""
    mine = os.path.isdir(os.path.join(target, "firmware"))
    for sub in ("crates", "shims"):
        for path in files_of(os.path.join(target, sub)) - files_of(os.path.join(new, sub)):
            os.remove(os.path.join(target, sub, path))
    for path in files_of(new):
        old = os.path.join(target, path)
        own = mine and path.split(os.sep)[0] == "firmware" or path == CONFIG and os.path.exists(old)
        if own or os.path.exists(old) and filecmp.cmp(os.path.join(new, path), old, shallow=False):
            continue
        os.makedirs(os.path.dirname(old), exist_ok=True)
        shutil.copyfile(os.path.join(new, path), old)
    return mine
