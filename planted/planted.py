#!/usr/bin/env python3
"""Tries planted bugs that the gate does not try: planted/NAME/*.edit, in the form of the must-fail edits.

  planted/planted.py fast                      each edit, here and in must-fail/, still applies: a second, no proof
  planted/planted.py together NAME.. | --since COMMIT | --all
                                               all edits, here and in must-fail/, many in one check: each in the body of a
                                               function of its own, and refused if a complaint stands at that function
  planted/planted.py run NAME.. | --since COMMIT | --all
                                               the edits of bodies here one after the other, by rt must-fail in a copy of the
                                               repository

An edit of a definition has a line 'only: LAW'. together tries it by a check of that function alone, which has to fail. So it
does with an edit of what other functions cite (a constant, a type, a signature, a clause) that names a function so. Such an edit
shares no check, since it may be the cause of what is complained of at functions that others turn.

together checks the functions that the edits turn and what these call, and nothing that stands above them: a caller's proof cites the
contract of what it calls. It begins with what `rt check` kept in out/, if there is any. With --jobs N in front of the names it builds
libraries with so many jobs, and tries so many crates at a time. The last line is 'N refused, M failed'; the status is 0 if M is 0.
"""
import functools
import importlib.machinery
import importlib.util
import os
import re
import shutil
import subprocess
import sys
import tempfile
import typing
from concurrent.futures import ThreadPoolExecutor

sys.dont_write_bytecode = True
TOP = os.path.dirname(os.path.dirname(os.path.realpath(__file__)))
ONE = ["--jobs", "1"]


def kits_rt():
    """Returns the kit's own rt as a module; the one on the PATH may be a link or a short script."""
    first_page = subprocess.run(["rt", "doc"], check=True, capture_output=True, text=True).stdout.strip()
    loader = importlib.machinery.SourceFileLoader("rt", f"{os.path.dirname(first_page)}/bin/rt")
    made = importlib.util.module_from_spec(importlib.util.spec_from_loader("rt", loader))
    loader.exec_module(made)
    # (a crate's sum takes the sums of all below it, each of which does so again; here no crate changes meanwhile)
    made.rtlib.Crate.stamp = functools.cache(made.rtlib.Crate.stamp)
    return made


rt = kits_rt()


def git(*words):
    return subprocess.run(["git", "-C", TOP, *words], check=True, capture_output=True, text=True).stdout


def read(file):
    with open(file, encoding="utf-8") as it:
        return it.read()


def write(file, text):
    with open(file, "w", encoding="utf-8") as it:
        it.write(text)


def planted(name):
    folder = f"{TOP}/planted/{name}"
    found = os.listdir(folder) if os.path.isdir(folder) else []
    return sorted(f"{folder}/{it}" for it in found if it.endswith(".edit"))


def all_edits(crate):
    return [*rt.edits_of(crate)[0], *planted(crate.name)]


def law_of(edit):
    """Returns the law, or other function, that an edit names to be tried by, or nothing."""
    found = re.search(r"^only: (\S+)$", read(edit), re.M)
    return found[1] if found else ""


# ---- fast


def fast(crates):
    failed, count, seen = 0, 0, {}
    for name in sorted(os.listdir(f"{TOP}/planted")):
        if os.path.isdir(f"{TOP}/planted/{name}") and name not in crates:
            print(f"planted/{name}: crates.txt names no such crate")
            failed += 1
    for crate in crates.values():
        for edit in all_edits(crate):
            why = rt.read_edit(edit, crate.folder)[1] or lawless(edit) or repeated(seen, crate.name, edit)
            if why:
                print(f"{os.path.relpath(edit, TOP)}: {why}")
            count, failed = count + 1, failed + bool(why)
    print(f"{count} edits looked at, {failed} failed")
    return failed


def lawless(edit):
    """Returns what an edit of a definition lacks."""
    turns = re.search(r"^file: (specs|proofs)/", read(edit), re.M)
    return "it turns a definition and names no law in a line 'only: '" if turns and not law_of(edit) else None


def repeated(seen, name, edit):
    """Returns what an edit repeats of one of its crate that was seen, and has it seen."""
    why = None
    for key in ((name, os.path.basename(edit)), (name, read(edit))):
        why = why or (f"the same name or text as {seen[key]}" if key in seen else None)
        seen[key] = os.path.relpath(edit, TOP)
    return why


def changed_since(commit, crates):
    """Returns the crates whose files or edits changed, or that stand on a changed text: an edit is proved over the contracts below."""
    files = (git("diff", "--name-only", commit) + git("ls-files", "--others", "--exclude-standard")).split("\n")
    own = {it.split("/")[1] for it in files if re.match(r"(crates|planted)/[^/]+/", it)}
    stated = {it.split("/")[1] for it in files if re.match(r"crates/[^/]+/(src|specs)/", it)}
    return [name for name, it in crates.items() if name in own or stated & {dep.name for dep in it.below()}]


# ---- together


class Place(typing.NamedTuple):
    """What an edit turns: a function's text, or a line outside of all functions, which has no name."""

    path: str
    first: int
    last: int
    name: str = ""
    # the type of the impl that the function stands in, or the trait that it stands in; the impl's trait; and what its type is an instance of
    of_type: str = ""
    of_trait: str = ""
    of_args: str = ""
    cycle: str = ""
    # the body's first line: those above say what others can cite
    body: int = 0


BLOCK = r"(?:unsafe )?impl\b(<.*?>)? (?:([\w:]+)(?:<(?:(?:\w+::)*(\w+))?.*>)? for )?(\w+)(?:<(.*?)>)?"
HEAD = r"( *)(?:pub(?:\([^)]*\))? )?(?:const |unsafe |final )*fn (\w+)"


def block_of(line):
    """Returns the type and the trait of the impl that the line begins, and the arguments of an instance's type, in the prover's spelling. A trait counts as a type."""
    trait, block = re.match(r"(?:pub(?:\([^)]*\))? )?trait (\w+)", line), re.match(BLOCK, line)
    if trait or not block:
        return trait[1] if trait else "", "", ""
    # (that of From<AllocError> is FromAllocError, and that of Stack<Seq<u32>> Stack+Seq+u32)
    args = [] if block[2] else re.findall(r"\w+", re.sub(r"'\w+", "", block[5] or ""))
    is_instance = not set(args) & set(re.findall(r"\w+", block[1] or ""))
    of_args = "".join(f"+{it}" for it in args) if is_instance else ""
    return block[4], (block[2] or "").split("::")[-1] + (block[3] or ""), of_args


def functions(text, path):
    """Returns the functions of a file in rt fmt's layout that have a body, each from its attributes and comments to its end."""
    lines, found, block = text.split("\n"), [], ("", "", "")
    for at, line in enumerate(lines):
        head = re.match(HEAD, line)
        if re.match(r"(?!where)\w", line):
            block = block_of(line)
        if not head:
            continue
        begin = rf"{head[1]}(\{{|\S.*\{{)$"
        # (what a trait only declares ends before the next one begins)
        after = next((it for it in lines[at:] if re.match(begin, it) or it is not line and re.match(rf"\}}|{head[1]}///|{HEAD}", it)), "")
        if not line.endswith("}") and not re.match(begin, after):
            continue
        top = at
        while top and re.match(r" *(#\[|///)", lines[top - 1]):
            top -= 1
        end = next((i for i in range(at, len(lines)) if lines[i] == head[1] + "}" or i == at and line.endswith("}")), at)
        body = next((i for i in range(at, end) if re.match(begin, lines[i])), at)
        cycle = re.search(r"#\[cycle\((\w+)\)\]", "\n".join(lines[top:at]))
        found.append(Place(path, top + 1, end + 1, head[2], *block, cycle[1] if cycle else "", body + 1))
    return found


def places(crate, edit):
    """Returns what the edit turns, and whether that is the inside of bodies alone."""
    path, old, found, is_inside = "", "", set(), True
    for line in read(edit).split("\n"):
        path = line[len("file: ") :].strip() if line.startswith("file: ") else path
        old = line[len("old: ") :] if line.startswith("old: ") else old
        if line.startswith("new:"):
            text = read(f"{crate.folder}/{path}")
            at = text[: max(text.find(old), 0)].count("\n") + 1
            around = [it for it in functions(text, path) if it.first <= at <= it.last]
            place = around[-1] if around else Place(path, at, at)
            found.add(place)
            # (the line that begins a body may end with more, but begins as it did)
            is_inside = is_inside and bool(around) and (at > place.body or at == place.body and line[len("new: ") :].startswith(old))
    return found, is_inside


def module_of(place):
    """Returns the path of the module that the place stands in, below the crate; that of the root is empty."""
    return re.sub(r"(^|/)(lib|main|mod)$", "", place.path[len("src/") : -len(".rt")])


def name_of(crate, place):
    """Returns a function's name, or the end of it that the prover takes in its place: a method's type may stand in another file."""
    if place.of_type:
        return f"{place.of_type}{place.of_args}{place.of_trait}::{place.name}"
    return "::".join([crate.name, *filter(None, module_of(place).split("/")), place.name])


def proof_folder(place):
    """Returns the pattern of a function's folder below proofs/. A method's goes by its type, which may stand in another file."""
    name = rf"(\+?{place.name}|\+{place.cycle})/" if place.cycle else rf"\+?{place.name}/"
    if place.of_type:
        block = rf"{place.of_type}\w*{place.of_trait}\w*" if place.of_trait else place.of_type
        return rf"proofs/([\w+]+/)*{block}(\+[\w+]+)?/{name}"
    module = module_of(place)
    return rf"proofs/{module}{'/' if module else ''}{name}"


# What a proof says that names what an edit took away; and what one says that cites a proof that isn't one any more.
IS_GONE = re.compile("has no field|is not in scope|has no `")
IS_CITED = re.compile("was not admitted")


def complains(line, place, is_gone=False):
    """Returns whether the line is a complaint at the function: at its own text, or in a file of its proof; and there of a goal, or else of a name that is gone."""
    at = re.match(r"(?:note: )?(?:\./)?(\S+?):(\d+):\d+: (.*)", line)
    if not at or not place.name or IS_CITED.search(at[3]):
        return False
    if at[1] == place.path:
        return not is_gone and place.first <= int(at[2]) <= place.last and bool(re.search("it is not proved|found no proof|error", at[3]))
    return bool(re.match(proof_folder(place), at[1])) and "error" in at[3] and bool(IS_GONE.search(at[3])) == is_gone


def told_by(lines, turned, is_gone=False):
    """Returns the edits that the lines of a check tell refused: a complaint stands at a function that this edit turns and none of the others."""
    told = set()
    for line in lines:
        at = [edit for edit, its_places in turned.items() if any(complains(line, it, is_gone) for it in its_places)]
        told |= {*at} if len(at) == 1 else set()
    return told


def apart(crate, edits):
    """Returns those of the edits that turn functions of their own, and the others."""
    group, others, turned = [], [], set()
    for edit in edits:
        at, _ = places(crate, edit)
        (others if turned & at else group).append(edit)
        turned |= at
    return group, others


def with_edits(crate, edits):
    """Returns the texts of the crate's files with all of the edits, which are applied to a copy one after the other: each new text is one line, so no line moves."""
    texts = {}
    with tempfile.TemporaryDirectory(prefix="planted-") as room:
        shutil.copytree(crate.folder, room, dirs_exist_ok=True, ignore=shutil.ignore_patterns("out"))
        for edit in edits:
            for path, text in (rt.read_edit(edit, room)[0] or {}).items():
                texts[path] = text
                write(f"{room}/{path}", text)
    return texts


def link(old, new):
    """Has new be the file old, or a copy of it: the prover never writes into a file that it kept, but puts another in its place."""
    try:
        os.link(old, new)
    except OSError:
        shutil.copy2(old, new)


def check_of(crate, texts, names, kept):
    """Checks these functions of the crate with these texts and what they call; or all of it, if the prover knows one under no such name."""
    ran = rt.checked(crate, texts, [*ONE, *(word for it in sorted(names) for word in ("--only", it))], kept)
    return rt.checked(crate, texts, ONE, kept) if ran.returncode == 2 else ran


def in_one(crate, edits, kept):
    """Returns those of the edits that one check with all of them refuses, each at a function of its own, and those of these that only a proof refuses
    that names what is gone; None if the check says nothing."""
    texts, turned = with_edits(crate, edits), {edit: places(crate, edit)[0] for edit in edits}
    ran = check_of(crate, texts, {name_of(crate, it) for those in turned.values() for it in those}, kept)
    lines = ran.stdout.rstrip("\n").split("\n")
    if ran.returncode != 1 or not lines[-1].startswith(("only=", "logic=not-proved")) or any(rt.unread(it, texts) for it in lines):
        return None
    by_goals = told_by(lines, turned)
    by_names = told_by(lines, turned, is_gone=True) - by_goals
    return by_goals | by_names, by_names


def groups_of(crate, edits):
    """Returns the edits in groups that turn functions of their own, the smallest last."""
    groups, left = [], edits
    while left:
        group, left = apart(crate, left)
        groups.append(group)
    return [it for it in groups if len(it) > 1]


def in_groups(crate, edits, kept):
    """Tries the edits many in a check, the smallest group first. Returns those that were refused so, those of these that only a proof refused that names
    what is gone, and how many checks it took. A group of which a check says nothing is halved."""
    told, by_names, checks, groups = set(), set(), 0, groups_of(crate, edits)
    while groups:
        group = groups.pop()
        if len(group) < 2:
            continue
        found, checks = in_one(crate, group, kept), checks + 1
        if found is None:
            groups += [group[: len(group) // 2], group[len(group) // 2 :]]
        else:
            told, by_names = told | found[0], by_names | found[1]
    return told, by_names, checks


# An edit that is refused so says little of the contract.
LITTLE = "only because a proof names what it takes away"


def by_functions(crate, edit, names, kept):
    """Returns whether a check of these functions fails with the edit, and what to say."""
    label, by = f"planted {crate.name}/{os.path.basename(edit)}", " and ".join(sorted(names))
    texts, why = rt.read_edit(edit, crate.folder)
    if why:
        return False, f"{label}: BAD EDIT: {why}"
    ran = check_of(crate, texts, names, kept)
    lines = ran.stdout.rstrip("\n").split("\n")
    bad = next((it for it in lines if rt.unread(it, texts)), "")
    if bad:
        return False, f"{label}: BAD EDIT: the prover cannot read it: {bad[:200]}"
    told = [it for it in lines if re.match(r"(\./)?proofs/\S+: error: |note: src/.*it is not proved", it)]
    is_open = any(re.match(rf"fn (\S+::)?{re.escape(name)}: (not proved|no proof)", it) for name in names for it in lines)
    if ran.returncode == 1 and told and is_open and lines[-1].startswith(("only=", "logic=not-proved")):
        first = next((it for it in told if not IS_GONE.search(it) and not IS_CITED.search(it)), "")
        little = "" if first else f" ({LITTLE})"
        return True, f"{label}: refused by {by}{little}: {(first or told[0])[:160]}"
    return False, f"{label}: NOT REFUSED by {by}: {lines[-1][:160]}"


def alone_in(crate, edit, kept):
    """Returns whether this edit alone is refused, and what to say: by a check of its law, or of what it turns, or else of the crate."""
    turned, is_inside = places(crate, edit)
    names = {law_of(edit)} if law_of(edit) else {name_of(crate, it) for it in turned} if is_inside else set()
    well, text = by_functions(crate, edit, names, kept) if names else (False, "")
    if well or law_of(edit):
        return well, text
    told, text = rt.must_fail(crate, edit, ONE, kept)
    # (some kits answer a bool, others a word)
    return told is True or told in (getattr(rt, "REFUSED", True), getattr(rt, "AT_LIMIT", True)), text


def try_crate(crate):
    """Tries all edits of a crate, those alone that no check of many refuses. Returns how many were refused, how many not, and what to print."""
    edits = all_edits(crate)
    # (others' functions may be complained of where an edit turns what they can cite, so it shares no check)
    good = [it for it in edits if not rt.read_edit(it, crate.folder)[1] and not law_of(it) and places(crate, it)[1]]
    # (without an edit nothing may be complained of; what is built already was proved)
    if crate.build_rlib(ONE, anew=False):
        return 0, len(edits), [f"planted: {crate.name} is not proved"]
    with tempfile.TemporaryDirectory(prefix="planted-kept-") as kept:
        if crate.has_kept():
            shutil.copytree(f"{crate.folder}/out/incremental", kept, dirs_exist_ok=True, copy_function=link)
        told, by_names, checks = in_groups(crate, good, kept)
        alone = [it for it in edits if it not in told]
        tried = [alone_in(crate, it, kept) for it in alone]
    refused = len(told) + sum(well for well, _ in tried)
    said = [f"rt: planted {crate.name}/{os.path.basename(it)}: refused, {LITTLE}" for it in sorted(by_names)]
    said += [f"rt: {text}" for _, text in tried]
    said.append(f"planted: {crate.name}: {len(edits)} edits, {checks} checks of many, {len(alone)} of one")
    return refused, len(edits) - refused, said


def together(crates, at_once):
    refused, failed, _held = 0, 0, rt.rtlib.lock(crates)
    with_edits_here = [it for it in crates if all_edits(it)]
    for crate in with_edits_here:
        if any(dep.build_rlib(["--jobs", str(at_once)], anew=False) for dep in crate.below()):
            print(f"planted: what {crate.name} stands on is not proved")
            return 1
    with ThreadPoolExecutor(at_once) as pool:
        for well, ill, said in pool.map(try_crate, with_edits_here):
            refused, failed = refused + well, failed + ill
            print("\n".join(said), flush=True)
    print(f"{refused} refused, {failed} failed")
    return failed


# ---- run


def copy_without_edits(room):
    for path in filter(None, git("ls-files", "-z", "--cached", "--others", "--exclude-standard").split("\0")):
        if os.path.isfile(f"{TOP}/{path}") and not re.match(r"planted/|crates/[^/]+/must-fail/", path):
            os.makedirs(os.path.dirname(f"{room}/{path}"), exist_ok=True)
            shutil.copyfile(f"{TOP}/{path}", f"{room}/{path}")
    subprocess.run(["git", "init", "-q", room], check=True)


def of_bodies(crate):
    return [it for it in planted(crate.name) if not law_of(it)]


def run_one(room, crate):
    """Returns how many of the crate's edits the kit's own way refuses, tried one after the other in a copy of the repository."""
    for dep in crate.below():
        if os.path.isdir(f"{dep.folder}/out/rlib"):
            shutil.copytree(f"{dep.folder}/out/rlib", f"{room}/crates/{dep.name}/out/rlib", dirs_exist_ok=True)
    os.makedirs(f"{room}/crates/{crate.name}/must-fail")
    for edit in of_bodies(crate):
        shutil.copy(edit, f"{room}/crates/{crate.name}/must-fail")
    words = ["rt", "must-fail", crate.name]
    ran = subprocess.run(words, cwd=room, stdin=subprocess.DEVNULL, stdout=subprocess.PIPE, text=True, errors="replace")
    print(ran.stdout, end="", flush=True)
    return len(re.findall(r"^rt: must-fail \S+: refused, as it must be", ran.stdout, re.M))


def run(crates):
    refused = failed = 0
    with tempfile.TemporaryDirectory(prefix="planted-") as room:
        copy_without_edits(room)
        for crate in crates:
            edits = of_bodies(crate)
            well = run_one(room, crate) if edits else 0
            refused, failed = refused + well, failed + len(edits) - well
    print(f"{refused} refused, {failed} failed")
    return failed


def main(words):
    os.chdir(TOP)
    rt.rtlib.guarded()
    crates = {it.name: it for it in rt.rtlib.crates_below(TOP)}
    verb, names, at_once = "".join(words[:1]), words[1:], 1
    if verb == "fast" and not names:
        return 1 if fast(crates) else 0
    if verb == "together" and names[:1] == ["--jobs"] and re.fullmatch(r"[1-9]\d?", "".join(names[1:2])):
        names, at_once = names[2:], int(names[1])
    if names[:1] == ["--all"]:
        names = [*crates]
    elif names[:1] == ["--since"] and len(names) == 2:
        names = changed_since(names[1], crates)
    if verb not in ("run", "together") or any(it not in crates for it in names):
        sys.exit(__doc__)
    chosen = [crates[it] for it in names]
    return 1 if (run(chosen) if verb == "run" else together(chosen, at_once)) else 0


if __name__ == "__main__":
    sys.exit(main(sys.argv[1:]))
