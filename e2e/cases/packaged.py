"""What `make install` and the Debian package bring. `make deb-test` installs the package on a clean machine."""

import hashlib
import os
import re
import shutil
import subprocess
import tempfile

from fixtures import harness
from fixtures.program import TOP

DOC = "/usr/share/doc/relayd/"
NEED_THE_TREE = ("demo.sh", "running.py")
PROGRAMS = ("examples/compare_with_carbon.py", "examples/report_to_graphite.py", "examples/tls/certificates.sh")
# lintian does not like to be root.
USER = [] if os.geteuid() else ["setpriv", "--reuid=65534", "--regid=65534", "--clear-groups"]
LINK = re.compile(r"\]\(([^()\s]+)\)")
SPOKEN_OF = re.compile(rb"\b(?:docs|examples)/[\w./-]*?\.(?:md|conf|cfg|awk|sed|py)")


def files_below(folder):
    """The files below a folder, each with whether it can be run."""
    found = {}
    for place, _, names in os.walk(folder):
        for name in names:
            path = os.path.join(place, name)
            found["/" + os.path.relpath(path, folder)] = os.access(path, os.X_OK)
    return found


class Packaged(harness.Suite):
    """Files that are installed."""

    def setUp(self):
        self.folder = tempfile.mkdtemp(prefix="relayd-packaged-")
        self.addCleanup(shutil.rmtree, self.folder, ignore_errors=True)

    def done(self, *words):
        """Runs a command that must end well, and gives what it prints."""
        ran = subprocess.run(words, cwd=self.folder, stdin=subprocess.DEVNULL, stdout=subprocess.PIPE,
                             stderr=subprocess.PIPE, timeout=harness.LIMIT)
        self.assertEqual(ran.returncode, 0, ran.stderr)
        return ran.stdout.decode()

    def package(self):
        """The path of a package that is built."""
        return self.done(os.path.join(TOP, "packaging", "deb.sh"), harness.Settings.relayd, self.folder).strip()

    def test_two_builds(self):
        """Two builds give the same package and the same archive, to the byte, whatever the shell's mask and its time zone."""
        made = []
        for name, mask, zone in (("first", "077", "Asia/Tokyo"), ("second", "022", "UTC")):
            os.mkdir(os.path.join(self.folder, name))
            for script in ("deb.sh", "tarball.sh"):
                needs = "dpkg-deb" if script == "deb.sh" else "tar"
                if shutil.which(needs) is None:
                    self.skipTest(f"{needs} is missing")
                path = self.done("env", f"TZ={zone}", "sh", "-c", f'umask {mask}; "$0" "$@"', os.path.join(TOP, "packaging", script),
                                 harness.Settings.relayd, os.path.join(self.folder, name)).strip()
                with open(path, "rb") as file:
                    made.append((os.path.basename(path), hashlib.sha256(file.read()).hexdigest()))
        self.assertEqual(made[:2], made[2:])

    def test_tarball(self):
        """The archive has its checksums, and runs from any folder."""
        path = self.done(os.path.join(TOP, "packaging", "tarball.sh"), harness.Settings.relayd, self.folder).strip()
        self.assertEqual(self.done("sha256sum", "--check", f"{path}.sha256"), f"{os.path.basename(path)}: OK\n")
        clean = os.path.join(self.folder, "clean")
        os.mkdir(clean)
        self.done("tar", "--extract", "--file", path, "--directory", clean)
        root, = (os.path.join(clean, name) for name in os.listdir(clean))
        self.assertEqual(self.done("sh", "-c", 'cd "$0" && sha256sum --quiet --check SHA256SUMS', root), "")
        found = files_below(root)
        self.assertLessEqual({
            "/LICENSE", "/SHA256SUMS", "/bin/relayd", "/bin/relayd-supervised", "/lib/systemd/system/relayd.service",
            "/share/man/man1/relayd.1", "/share/man/man1/relayd-supervised.1", "/share/man/man5/relay.conf.5",
            "/share/bash-completion/completions/relayd", "/share/doc/relayd/docs/FAULTS.md",
            "/share/doc/relayd/examples/relay.conf", "/share/doc/relayd/copyright"}, set(found))
        moved = os.path.join(self.folder, "moved")
        os.rename(root, moved)
        config = os.path.join(moved, "share", "doc", "relayd", "examples", "relay")
        words = ["--config", f"{config}.conf", "--rules", f"{config}-rules.conf"]
        self.assertEqual(self.done(f"{moved}/bin/relayd", "check", *words), "ok 3 destinations\n")
        self.assertIn("relayd run", self.done("env", "PATH=/usr/bin:/bin", f"{moved}/bin/relayd-supervised", "--help"))

    def test_lintian(self):
        """Debian's own check of packages has no word against it."""
        if shutil.which("lintian") is None:
            self.skipTest("lintian is missing")
        words = [*USER, "lintian", "--fail-on", "error,warning", "--tag-display-limit", "0", self.package()]
        os.chmod(self.folder, 0o755)
        ran = subprocess.run(words, cwd=self.folder, stdin=subprocess.DEVNULL, stdout=subprocess.PIPE, stderr=subprocess.STDOUT,
                             timeout=harness.LIMIT, text=True)
        self.assertEqual((ran.returncode, ran.stdout), (0, ""))

    def test_install(self):
        """Below DESTDIR and PREFIX, and nothing elsewhere."""
        for name in ("Makefile", "packaging"):
            os.symlink(os.path.join(TOP, name), os.path.join(self.folder, name))
        os.mkdir(os.path.join(self.folder, "crates"))
        os.mkdir(os.path.join(self.folder, "bin"))
        shutil.copy(harness.Settings.relayd, os.path.join(self.folder, "bin", "relayd"))
        to = os.path.join(self.folder, "to")
        self.done("make", "-o", "bin/relayd", "install", f"DESTDIR={to}", "PREFIX=/opt/relayd")
        self.assertEqual(files_below(to), {
            "/opt/relayd/bin/relayd": True,
            "/opt/relayd/bin/relayd-supervised": True,
            "/opt/relayd/share/bash-completion/completions/relayd": False,
            "/opt/relayd/share/bash-completion/completions/relayd-supervised": False,
            "/opt/relayd/share/fish/vendor_completions.d/relayd-supervised.fish": False,
            "/opt/relayd/share/fish/vendor_completions.d/relayd.fish": False,
            "/opt/relayd/share/man/man1/relayd-supervised.1": False,
            "/opt/relayd/share/man/man1/relayd.1": False,
            "/opt/relayd/share/man/man5/relay.conf.5": False,
            "/opt/relayd/share/zsh/site-functions/_relayd": False,
        })

    def test_debian_package(self):
        """The files of the package; those in /etc are the operator's."""
        if shutil.which("dpkg-deb") is None:
            self.skipTest("dpkg-deb is missing")
        package = self.package()
        root = os.path.join(self.folder, "root")
        self.done("dpkg-deb", "-R", package, root)
        found = files_below(root)
        etc = [f"/etc/relayd/{name}.conf" for name in ("relay", "relay-rules", "rewrite-rules")]
        doc = {path: mode for path, mode in found.items() if path.startswith(DOC)}
        self.assertEqual({path: found[path] for path in found.keys() - doc.keys()}, dict.fromkeys((
            "/DEBIAN/postinst", "/DEBIAN/postrm", "/DEBIAN/prerm", "/usr/bin/relayd", "/usr/bin/relayd-supervised"),
            True) | dict.fromkeys((
                "/DEBIAN/conffiles", "/DEBIAN/control", "/DEBIAN/md5sums", *etc, "/lib/systemd/system/relayd.service",
                "/lib/systemd/system/relayd-metrics.service", "/lib/systemd/system/relayd-metrics.timer",
                "/lib/systemd/system/relayd@.service", "/lib/systemd/system/relayd-metrics@.service",
                "/lib/systemd/system/relayd-metrics@.timer",
                "/usr/share/relayd/report_to_graphite.py",
                "/usr/share/bash-completion/completions/relayd", "/usr/share/zsh/vendor-completions/_relayd",
                "/usr/share/bash-completion/completions/relayd-supervised",
                "/usr/share/fish/vendor_completions.d/relayd-supervised.fish",
                "/usr/share/fish/vendor_completions.d/relayd.fish", "/usr/share/man/man1/relayd-supervised.1.gz",
                "/usr/share/man/man1/relayd.1.gz", "/usr/share/man/man5/relay.conf.5.gz"), False))
        pages = [os.path.join(place, name) for place in ("docs", "examples", "examples/tls", "examples/two-relays")
                 for name in os.listdir(os.path.join(TOP, place)) if "." in name and name not in NEED_THE_TREE]
        self.assertEqual(doc, {DOC + path: path in PROGRAMS for path in
                               ("copyright", "changelog.gz", "README.md", "CHANGELOG.md", "SECURITY.md",
                                "THIRD_PARTY.md", *pages)})
        for page in (path for path in doc if path.endswith(".md")):
            with open(root + page, encoding="utf-8") as file:
                targets = [target.partition("#")[0] for target in LINK.findall(file.read()) if "://" not in target]
            missing = [target for target in targets if not os.path.exists(os.path.join(os.path.dirname(root + page), target))]
            self.assertEqual(missing, [], page)
        with open(os.path.join(root, "DEBIAN", "conffiles"), encoding="utf-8") as file:
            self.assertEqual(file.read().split(), etc)
        # What its files and the notes of the program speak of is there.
        with open(harness.Settings.relayd, "rb") as file:
            spoken_of = set(SPOKEN_OF.findall(file.read()))
        for name in ("relay", "relay-rules", "rewrite-rules"):
            with open(os.path.join(root, "etc", "relayd", f"{name}.conf"), "rb") as file:
                spoken_of |= set(SPOKEN_OF.findall(file.read()))
        self.assertIn(b"docs/FAULTS.md", spoken_of)
        self.assertLessEqual({DOC + path.decode() for path in spoken_of}, doc.keys())
        with open(os.path.join(root, "DEBIAN", "control"), encoding="utf-8") as file:
            control = file.read()
        self.assertIn("\nSuggests: netcat-openbsd", control)
        self.assertIn("\nRecommends: systemd, python3\n", control)
