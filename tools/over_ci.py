"""The kit's `rattle` over the libraries that `rt ci` has just proved and left in crates/*/out. So the static library and the weaker entries are
checked and built in seconds; `rt lib` and `rt check` take no library that they didn't make themselves, and would prove each of them once more."""
import os
import pathlib
import subprocess

ROOT = pathlib.Path(__file__).resolve().parent.parent


def kit():
    return pathlib.Path(subprocess.run(["rt", "doc"], check=True, stdout=subprocess.PIPE, text=True).stdout.strip()).parent


def dependencies(root=ROOT):
    """for each crate of crates.txt whether it is a static library, and what its line lists"""
    told = {}
    for line in (root / "crates.txt").read_text().splitlines():
        name, _, listed = line.partition("#")[0].partition(":")
        if name.strip():
            told[name.split()[0]] = "staticlib" in name.split(), listed.split()
    return told


def below(name, told):
    """the repository's libraries that a crate stands on"""
    found = {}
    for dep in told[name][1]:
        if dep in told:
            found |= below(dep, told) | {dep: None}
    return found


def library(root, name):
    return root / f"crates/{name}/out/rlib/{name}.rlib"


def are_left(name, root=ROOT):
    """Whether the libraries below a crate are there as `rt ci` left them. Where there were others before, rt puts those back, with a stamp of its own."""
    return all((library(root, d) / "format").is_file() and not (library(root, d).parent / "stamp").exists() for d in below(name, dependencies(root)))


def rattle(verb, name, *more, root=ROOT, left=ROOT):
    """Runs `rattle VERB` on a crate of `root`. What stands below it is taken from `root` if it is there, else from `left`."""
    at, told = kit(), dependencies(root)
    is_static, listed = told[name]
    place = {d: next((p for p in (library(root, d), library(left, d)) if p.is_dir()), library(left, d)) for d in below(name, told)}
    is_program = (root / f"crates/{name}/src/main.rt").is_file()
    words = [at / "bin/rattle", verb, "--crate-name", name, "src/main.rt" if is_program else "src/lib.rt"]
    for dep in ["std", *(d for d in listed if d not in told)]:
        words += ["--extern", f"{dep}={at}/rlibs/{dep}.rlib"]
    words += ["-L", f"dependency={at}/rlibs"]
    for dep in listed:
        words += ["--extern", f"{dep}={place[dep]}"] if dep in told else []
    for path in place.values():
        words += ["-L", f"dependency={path.parent}"]
    words += ["--antt-project", at / "rattle/logic/antt-project.json", "--logic-built", at / "logic_built", "--links", f"{name}="]
    words += ["--jobs", str(max(1, min(4, len(os.sched_getaffinity(0)))))]
    words += ["--crate-type", "staticlib"] if is_static else []
    words += ["--toolchain", at / "toolchain", "--backend", "llvm"] if verb == "build" and (is_static or is_program) else []
    return subprocess.run([str(w) for w in [*words, *more]], cwd=root / f"crates/{name}", stdin=subprocess.DEVNULL, stdout=subprocess.PIPE, stderr=subprocess.STDOUT, text=True)
