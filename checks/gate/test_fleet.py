"""The tree of contrib/merge-tree as engines run it, and the commands of the chapter on a fleet in docs/USING.md as they stand, with
the demo for a service."""
import json
import os
import re
import unittest

from common import DONE, FAILED, TOP, Case, needs, takes
import test_merge_tree
from test_using import chapters, commands
from pgo_tools.cli import Trouble
from pgo_tools.fleet import engines, tree


class Engines(test_merge_tree.Tree):
    """One description of the tree, that engines run."""

    def setUp(self):
        super().setUp()
        self.plan(size=3)

    def engine(self, name):
        ran = self.merge(f"--print={name}", "tree")
        self.expect(ran, DONE, ran.out)
        return self.file(name, ran.out)

    def whole(self):
        self.assertEqual((self.folder / "out").read_bytes(), self.sum_of(self.files))

    @needs("make")
    def test_make(self):
        path = self.engine("make")
        (self.folder / "p/9").rename(self.folder / "p/x")
        ran = self.run_here("make", "-k", "-j3", "-f", path)
        self.tells(ran, 2, "p/9: no such file")
        self.nothing_out()
        (self.folder / "p/x").rename(self.folder / "p/9")
        self.expect(self.run_here("make", "-s", "-j3", "-f", path), DONE)
        self.whole()

    @needs("parallel", "seq")
    def test_parallel(self):
        path = self.engine("parallel")
        (self.folder / "p/9").rename(self.folder / "p/x")
        ran = self.run_here("sh", path, "-j2")
        self.assertNotEqual(ran.status, DONE)
        self.assertIn("p/9: no such file", ran.said)
        self.nothing_out()
        (self.folder / "p/x").rename(self.folder / "p/9")
        self.assertEqual(self.run_here("sh", path, "-j2").status, DONE)
        self.whole()

    @needs("kubectl")
    def test_kubernetes(self):
        path = self.engine("kubernetes")
        ran = self.run_here("kubectl", "label", "--local", "-f", path, "--dry-run=client", "-o", "json", "night=1")
        if ran.status:
            self.fail(ran.said)
        self.assertEqual(ran.out.count(b'"kind": "Job"'), 3)
        told = [json.loads(text) for text in re.split(r"(?m)^(?=\{$)", ran.out.decode()) if text]
        limits = [(job["spec"]["completions"], job["spec"]["backoffLimit"]) for job in told]
        self.assertEqual(limits, [(7, 6), (3, 6), (1, 6)])
        container = told[0]["spec"]["template"]["spec"]["containers"][0]
        self.assertEqual(container["volumeMounts"], [{"mountPath": str(self.folder), "name": "profiles"}])
        self.assertEqual(container["securityContext"]["runAsUser"], os.geteuid())

    def loop(self, ends):
        """Runs the commands in the first lines of the YAML, by a stand-in for kubectl whose job of a level fails."""
        stand_in = self.file("bin/kubectl", KUBECTL.replace("ENDS", ends))
        stand_in.chmod(0o755)
        lines = self.merge("--print=kubernetes", "tree").out.decode().splitlines()
        script = "\n".join(line[1:] for line in lines if line.startswith("#   "))
        (self.folder / "asked").unlink(missing_ok=True)
        environment = {"PATH": f"{stand_in.parent}:{os.environ['PATH']}"}
        ran = self.run_here("sh", "-c", script, environment=environment, limit=20)
        return ran.status, [line.split()[-1][-1] for line in (self.folder / "asked").read_text().splitlines()]

    def test_kubernetes_job_by_job(self):
        self.assertEqual(self.loop("0"), (0, ["1", "2", "3"]))
        self.assertEqual(self.loop("2"), (1, ["1", "2"]))

    def test_kubernetes_mounts(self):
        """Folders that have only the root in common are mounted one by one; the root never is."""
        out = "/srv/a/out"
        for files, mounts in ((("/srv/a/f", "/srv/b/f"), ["/srv"]), (("/data/x/f",), ["/data/x", "/srv/a"])):
            described = tree.Tree("/srv/a/tree", out, "0", 2, tree.Choices(), [tree.File(name, 1) for name in files])
            self.assertEqual(engines.mounts(described), mounts)
            told = "\n".join(engines.kubernetes(described, "/bin/merge-tree"))
            self.assertEqual(re.findall('mountPath: "(.*)"', told)[: len(mounts)], mounts)
            self.assertEqual(told.count("claimName: "), len(mounts) * len(described.counts()))
        described = tree.Tree("/srv/tree", "/out", "0", 2, tree.Choices(), [tree.File("/srv/f", 1)])
        with self.assertRaisesRegex(Trouble, "/out is in the folder /, where no volume can be mounted"):
            engines.mounts(described)

    def test_slurm(self):
        """By a stand-in for sbatch, which runs each array's jobs at once."""
        stand_in = self.file("bin/sbatch", SBATCH)
        stand_in.chmod(0o755)
        path = self.engine("slurm")
        ran = self.run_here("sh", path, "--partition=night", environment={"PATH": f"{stand_in.parent}:{os.environ['PATH']}"})
        self.expect(ran, DONE, b"", ran.err)
        self.whole()
        log = (self.folder / "submitted").read_text().splitlines()
        self.assertEqual(len(log), 3)
        self.assertTrue(all("--kill-on-invalid-dep=yes" in line and "--partition=night" in line for line in log))
        self.assertIn("--dependency=afterok:1 ", log[1])

    def test_slurm_with_small_arrays_and_clusters(self):
        """A level is several arrays if one would be too large. The next takes the ID of an answer ID;CLUSTER."""
        for name, text in (("sbatch", SBATCH), ("scontrol", "#!/bin/sh\necho 'MaxArraySize            = 3'\n")):
            stand_in = self.file(f"bin/{name}", text)
            stand_in.chmod(0o755)
        path = self.engine("slurm")
        environment = {"PATH": f"{stand_in.parent}:{os.environ['PATH']}", "CLUSTER": ";night"}
        self.expect(self.run_here("sh", path, environment=environment), DONE)
        self.whole()
        log = (self.folder / "submitted").read_text().splitlines()
        arrays = re.findall("--array=(\\S+)", "\n".join(log))
        self.assertEqual(arrays, ["0-2", "0-2", "0-0", "0-2", "0-0"])
        found = [re.search("--dependency=(\\S+)", line) for line in log]
        self.assertEqual([match and match[1] for match in found], [None] * 3 + ["afterok:1:2:3", "afterok:4"])

    def test_nomad(self):
        self.assertIn(b"not run", self.merge("--print=nomad", "tree").out)

    def test_names_that_would_be_more_than_names(self):
        for folder, refusing in (("a\nall: evil", ("make", "parallel", "slurm", "kubernetes", "nomad")), ("a{}", ("parallel",))):
            self.expect(self.merge(f"--plan={folder}", "-o", "out", *self.files), DONE)
            for name in refusing:
                self.tells(self.merge(f"--print={name}", folder), FAILED, f"{name} would take that name for more than a name")
        folder = "%j$$(x)%{y"
        self.expect(self.merge(f"--plan={folder}", "-o", "out", *self.files), DONE)
        written = (("slurm", b"/%%j$$(x)%%{y'/slurm-%A_%a.log"), ("kubernetes", b"/%j$$$$(x)%{y"), ("nomad", b"/%j$$(x)%%{y"), ("make", b"/%j$$$$(x)%{y"))
        for name, escaped in written:
            with self.subTest(name):
                self.assertIn(escaped, self.merge(f"--print={name}", folder).out)


SBATCH = """#!/bin/sh
echo "$*" >>submitted
for word; do
    case $word in
    --array=*) last=${word##*-} ;;
    --wrap=*) wrap=${word#--wrap=} ;;
    esac
done
for SLURM_ARRAY_TASK_ID in $(seq 0 "$last"); do
    export SLURM_ARRAY_TASK_ID
    sh -c "$wrap" || exit
done
echo "$(wc -l <submitted)$CLUSTER"
"""

KUBECTL = """#!/bin/sh
for name; do :; done
case "$1 $2" in
patch*) echo "$2" >>asked ;;
"wait --for=condition=complete") case $name in *-ENDS) exit 1 ;; esac; grep -q "$name" asked ;;
"wait --for=condition=failed") case $name in *-ENDS) exit 0 ;; *) exit 1 ;; esac ;;
esac
"""


@takes(20)
@needs("clang", "make", "timeout")
class FleetPage(Case):
    def test_its_commands(self):
        for name in ("demo", "pgo", "pgo-cold", "contrib"):
            (self.folder / name).symlink_to(TOP / name)
        for command, _ in commands(chapters()[1]):
            with self.subTest(command):
                ran = self.run_here("sh", "-c", command)
                self.assertEqual(ran.status, DONE, ran.said)
        self.assertIn(b"main:", (self.folder / "all.prof").read_bytes())
        self.assertTrue(os.access(self.folder / "service", os.X_OK))


if __name__ == "__main__":
    unittest.main()
