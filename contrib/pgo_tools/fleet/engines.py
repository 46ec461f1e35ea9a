"""Prints what engines run of a tree: each part is one call, which passes over what is done, so any may be run again.

Each engine gets lines of text, made of the tree's levels alone. They name the tree's folder and this script by absolute
paths, which all machines have to see.
"""
import json
import os
import shlex
from typing import Callable, Dict, Iterator, List, Tuple, Union

from pgo_tools.cli import FAILED, Trouble
from pgo_tools.fleet.tree import Part, Tree


def call(script: str, folder: str, part: Union[Part, str]) -> str:
    """The call of a part, as words of a shell. `part` may be a variable of the engine."""
    return f"{shlex.quote(script)} --part={part} {shlex.quote(folder)}"


def steps(tree: Tree) -> List[Tuple[int, int]]:
    """Each level with how many parts it has."""
    return list(enumerate(tree.counts(), 1))


def make(tree: Tree, script: str) -> Iterator[str]:
    """A makefile: make -k -j 4 -f FILE."""
    yield "# The parts of a tree of profiles, for make -k -j 4 -f FILE. What is done is passed over."
    yield f".PHONY: all {' '.join(map(str, tree.parts()))}"
    yield f"all: {tree.last()}"
    for part in tree.parts():
        below = tree.below(part) if part.level > 1 else []
        yield f"{part}: {' '.join(map(str, below))}".rstrip()
        yield f"\t@{call(script, tree.folder, part)}".replace("$", "$$")


def parallel(tree: Tree, script: str) -> Iterator[str]:
    """A script of GNU parallel, level by level."""
    yield "#!/bin/sh"
    yield "# The parts of a tree of profiles, by GNU parallel; words go to it: --jobs 4, --sshloginfile HOSTS."
    yield "# What is done is passed over, so it may be run again."
    yield "set -eu"
    for level, count in steps(tree):
        yield f"seq -f '{level}.%.0f' 0 {count - 1} |"
        yield f"    parallel --halt soon,fail=1 -q \"$@\" {call(script, tree.folder, '{}')}"


def slurm(tree: Tree, script: str) -> Iterator[str]:
    """A script that submits an array for each level, and waits for the last."""
    yield "#!/bin/sh"
    yield ("# The parts of a tree of profiles, by Slurm: an array for each level, which waits for the one before; "
           "words go to sbatch.")
    yield "# It waits for the last, and ends with its status. What is done is passed over, so it may be run again."
    yield "set -eu"
    yield "submit() {"
    yield "    sbatch --parsable --kill-on-invalid-dep=yes --job-name=merge-tree \\"
    yield f"        --output={shlex.quote(tree.folder.replace('%', '%%'))}/slurm-%A_%a.log \"$@\""
    yield "}"
    yield "# An array has indexes below MaxArraySize, so a large level is several. An answer may be ID;CLUSTER."
    yield "most=$(scontrol show config 2>/dev/null | sed -n 's/^MaxArraySize *= *//p')"
    yield "[ \"${most:-0}\" -gt 0 ] || most=1001"
    yield "before="
    for level, count in steps(tree):
        wait = " --wait" if level == len(steps(tree)) else ""
        wrapped = shlex.quote("exec " + call(script, tree.folder, f"{level}.$((first + SLURM_ARRAY_TASK_ID))"))
        yield "first=0 jobs="
        yield f'while [ "$first" -lt {count} ]; do'
        yield f'    last=$(({count} - first - 1))'
        yield '    [ "$last" -lt "$most" ] || last=$((most - 1))'
        yield f'    id=$(submit --array="0-$last" ${{before:+"--dependency=afterok$before"}}{wait} "$@" \\'
        yield f'        --wrap="first=$first; "{wrapped})'
        yield '    jobs=$jobs:${id%%;*} first=$((first + last + 1))'
        yield "done"
        yield "before=$jobs"


def as_text(word: str) -> str:
    """A word as a text of JSON, which YAML and HCL read too."""
    try:
        word.encode("utf-8")
    except UnicodeEncodeError:
        raise Trouble(f"{word}: the name is no UTF-8 text, which this engine asks for", FAILED,
                      "a folder of another name") from None
    return json.dumps(word, ensure_ascii=False)


def mounts(tree: Tree) -> List[str]:
    """The folders that contain all that a part reads and writes: one, or one for each folder of the root."""
    files = [] if tree.choices.fetch else [file.name for file in tree.files]
    folders = {os.path.dirname(name) for name in (tree.folder, tree.out, *files)}
    if "/" in folders:
        lost = next(name for name in (tree.folder, tree.out, *files) if os.path.dirname(name) == "/")
        raise Trouble(f"{lost} is in the folder /, where no volume can be mounted", FAILED, "a folder below it")
    common = os.path.commonpath(list(folders))
    tops = sorted({each.split("/")[1] for each in folders})
    return [common] if common != "/" else [
        os.path.commonpath([each for each in folders if each.split("/")[1] == top]) for top in tops
    ]


def kubernetes(tree: Tree, script: str) -> Iterator[str]:
    """A job with indexes for each level, which are started one after the other."""
    name, levels = f"merge-tree-{tree.id}", len(steps(tree))
    places = mounts(tree)
    claims = ["profiles"] if len(places) == 1 else [f"profiles-{number}" for number in range(1, len(places) + 1)]
    mounted = ", ".join(f"the claim `{claim}` is mounted at {place}" for claim, place in zip(claims, places))
    yield ("# The parts of a tree of profiles, by Kubernetes: a job for each level, which starts suspended. "
           "The image has pgo, Python and")
    yield f"# {script}; {mounted}. Put the farm's own names in place of IMAGE and {', '.join(claims)}."
    yield "# A job that fails ends the loop within seconds. The last line tells by its status if all is done."
    yield "#   kubectl apply -f FILE"
    yield f"#   for level in {' '.join(str(level) for level, _ in steps(tree))}; do"
    yield f"#       job=job/{name}-$level"
    yield "#       kubectl patch \"$job\" -p '{\"spec\":{\"suspend\":false}}' || break"
    yield "#       until kubectl wait --for=condition=complete --timeout=5s \"$job\"; do"
    yield "#           kubectl wait --for=condition=failed --timeout=1s \"$job\" && break 2"
    yield "#       done"
    yield "#   done"
    yield f"#   kubectl wait --for=condition=complete --timeout=1s job/{name}-{levels}"
    for level, count in steps(tree):
        yield from [
            "---", "apiVersion: batch/v1", "kind: Job", "metadata:", f"  name: {name}-{level}", "spec:",
            "  suspend: true", "  completionMode: Indexed", f"  completions: {count}",
            f"  parallelism: {min(count, 64)}", "  backoffLimit: 6", "  activeDeadlineSeconds: 21600",
            "  template:", "    spec:", "      restartPolicy: Never", "      containers:", "      - name: part",
            "        image: IMAGE",
        ]
        shell = f'exec {call(script, tree.folder, f"{level}.$JOB_COMPLETION_INDEX")}'
        # A tree belongs to the user who made it.
        yield "        securityContext:"
        yield from [f"          runAsUser: {os.geteuid()}", f"          runAsGroup: {os.getegid()}"]
        yield f"        command: [/bin/sh, -c, {as_text(shell.replace('$', '$$'))}]"
        yield "        volumeMounts:"
        for claim, place in zip(claims, places):
            yield from [f"        - name: {claim}", f"          mountPath: {as_text(place)}"]
        yield "      volumes:"
        for claim in claims:
            yield from [f"      - name: {claim}", "        persistentVolumeClaim:", f"          claimName: {claim}"]


def nomad(tree: Tree, script: str) -> Iterator[str]:
    """A batch for each level."""
    yield ("# The parts of a tree of profiles, by Nomad: a batch for each level, to be run "
           "once the one before is complete.")
    yield "# This was written by Nomad's manual and not run."
    for level, count in steps(tree):
        shell = as_text(f'exec {call(script, tree.folder, f"{level}.$NOMAD_ALLOC_INDEX")}')
        shell = shell.replace("${", "$${").replace("%{", "%%{")
        yield from [
            f'job "merge-tree-{tree.id}-{level}" {{', '  type = "batch"', '  group "parts" {',
            f"    count = {count}",
            '    task "part" {', '      driver = "raw_exec"', "      config {", '        command = "/bin/sh"',
            f'        args    = ["-c", {shell}]', "      }", "    }", "  }", "}",
        ]


def printed(engine: str, tree: Tree, script: str) -> Iterator[str]:
    """What an engine runs of a tree. Names that would be more than names there are refused."""
    for name in (tree.folder, script):
        if any(each < " " or each == "\x7f" for each in name) or engine == "parallel" and "{" in name:
            raise Trouble(f"{name}: {engine} would take that name for more than a name", FAILED,
                          "a folder of another name")
    return ENGINES[engine](tree, script)


ENGINES: Dict[str, Callable[[Tree, str], Iterator[str]]] = {
    "make": make, "parallel": parallel, "slurm": slurm, "kubernetes": kubernetes, "nomad": nomad,
}
