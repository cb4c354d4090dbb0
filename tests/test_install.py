"""scripts/install into a temporary folder: hosts are built and run against what is there, it is looked at, and
uninstalled. The hosts print docs/RULES.md's day list.

It needs cargo, gcc, g++, binutils, pkg-config, cmake and groff.
"""
import os
import shutil

from helper import ANY, ARCHIVE, DAYLIST, JOBSHEET, SHARED, TOP, WARNINGS, Cases, Part, Start, run, small_repository

DAY = (TOP / "crates/daylist/stdout").read_text()
SHEET = TOP / "examples/four-jobs.sheet"
HOST = TOP / "examples/day.c"
DONE = (0, ANY, ANY)
CPP = """#include <taskgraph.h>
#include <cstdio>
#include <vector>
int main() {
    std::vector<uint8_t> sheet(32768), out(98304);
    sheet.resize(std::fread(sheet.data(), 1, sheet.size(), stdin));
    const tg_day day = tg_day_list(sheet.data(), sheet.size(), 2, out.data(), out.size());
    std::fwrite(out.data(), 1, day.bytes, stdout);
    return day.number != TG_ACCEPTED;
}
"""
CMAKE = """cmake_minimum_required(VERSION 3.18)
project(hosts C)
find_package(taskgraph @WANTED@ CONFIG REQUIRED)
add_executable(shared @HOST@)
target_link_libraries(shared taskgraph::taskgraph)
add_executable(static @HOST@)
target_link_libraries(static taskgraph::static)
"""
LIBRARY = """cd "$(dirname "$0")/.." && echo called >>calls && [ ! -e refuse ] &&
    cp libtaskgraph.* target/staticlib/ && bash scripts/sources >target/staticlib/libtaskgraph.a.sources
"""


def install(*words, **how):
    return run("bash", TOP / "scripts/install", *words, **how)


def files(folder):
    return sorted(str(path.relative_to(folder)) for path in folder.rglob("*") if path.is_symlink() or path.is_file())


class Install(Cases):
    needs = (ARCHIVE, SHARED)

    def prints_the_day(self, name, *command, **how):
        self.same(name, run(*command, **how), (0, DAY, ""))

    def test_all(self):
        folder = self.folder()
        prefix, stage = folder / "prefix", folder / "a stage"
        for name in ("install", "install over it"):
            done = install("prefix", cwd=folder)  # a relative PREFIX is one of the folder where it is said
            self.same(name, done, DONE)
        version = done.out.split()[1]
        names = run("python3", "scripts/man-page", "--names").out.split()
        done = install("/usr", env={**os.environ, "DESTDIR": str(stage)})
        self.same("DESTDIR", (*done, files(stage / "usr")), (*DONE, files(prefix)))
        text = (stage / "usr/lib/pkgconfig/taskgraph.pc").read_text()
        self.same("DESTDIR is in no file", text, Start("prefix=/usr\n"))
        self.installed(prefix, version, names)
        self.pkg_config(prefix, version, folder)
        self.cmake(prefix, int(version.split(".")[0]), folder)
        self.manual(prefix, names)
        self.day_list(prefix, folder)
        self.jobsheet(prefix)
        self.uninstall(prefix)

    def installed(self, prefix, version, names):
        """What lies there, and what the libraries show."""
        major = version.split(".")[0]
        pages = [f"share/man/man3/{name}.3" for name in ["taskgraph", *names]]
        cmake = [f"lib/cmake/taskgraph/taskgraph-config{end}.cmake" for end in ("", "-version")]
        shared = [f"lib/libtaskgraph.so{end}" for end in ("", f".{major}", f".{version}")]
        expected = ["bin/day-list", "bin/jobsheet", "include/taskgraph.h", "lib/libtaskgraph.a",
                    "lib/pkgconfig/taskgraph.pc", "libexec/taskgraph/daylist", "share/man/man1/day-list.1",
                    "share/man/man1/jobsheet.1", "share/taskgraph/manifest"]
        self.same("the files", files(prefix), sorted(expected + pages + cmake + shared))
        for link, to in zip(shared, shared[1:]):
            self.same(f"the link {link}", os.readlink(prefix / link), to.split("/")[-1])
        for name, options in ((shared[2], ["--dynamic"]), ("lib/libtaskgraph.a", [])):
            nm = run("nm", "--extern-only", "--defined-only", "--format=posix", *options, prefix / name)
            shown = [line.split()[0] for line in nm.out.splitlines() if line and not line.endswith(":")]
            self.same(f"{name} shows the header's functions alone", sorted(shown), sorted(names))
        dynamic = run("readelf", "--dynamic", prefix / shared[2]).out
        soname = f"SONAME Library soname: [libtaskgraph.so.{major}]"
        self.same("the soname", " ".join(dynamic.replace("(SONAME)", "SONAME").split()), Part(soname))
        filled = [*cmake, "lib/pkgconfig/taskgraph.pc", "share/man/man1/day-list.1", "share/man/man1/jobsheet.1"]
        self.same("no mark is left to fill in", [name for name in filled if "@" in (prefix / name).read_text()], [])

    def pkg_config(self, prefix, version, folder):
        env = {**os.environ, "PKG_CONFIG_PATH": str(prefix / "lib/pkgconfig")}
        ask = lambda *options: run("pkg-config", *options, "taskgraph", env=env).out.split()
        self.same("pkg-config's version", ask("--modversion"), [version])
        cc = ("gcc", "-std=c11", *WARNINGS, HOST, "-o")
        static = ("-static", *ask("--static", "--cflags", "--libs"))
        self.same("the shared library by pkg-config", run(*cc, folder / "shared", *ask("--cflags", "--libs")), DONE)
        self.same("the static library by pkg-config", run(*cc, folder / "static", *static), DONE)
        with_path = {"LD_LIBRARY_PATH": str(prefix / "lib")}
        self.prints_the_day("a host with the shared library", folder / "shared", env=with_path)
        self.prints_the_day("a host with the static library", folder / "static", env={})
        lost = run(folder / "shared", env={})
        self.same("the shared library is looked for by its soname", lost.err, Part("libtaskgraph.so."))
        (folder / "host.cc").write_text(CPP)
        cpp = ("g++", "-std=c++17", *WARNINGS, "-pedantic", folder / "host.cc", "-o", folder / "cpp")
        self.same("a host in C++", run(*cpp, *static), DONE)
        self.prints_the_day("the host in C++", folder / "cpp", stdin=self.enterContext(SHEET.open()))

    def cmake(self, prefix, major, folder):
        def configure(wanted):
            project = folder / f"project-{wanted}"
            project.mkdir()
            (project / "CMakeLists.txt").write_text(CMAKE.replace("@WANTED@", wanted).replace("@HOST@", str(HOST)))
            made = run("cmake", "-S", project, "-B", project / "build", f"-DCMAKE_PREFIX_PATH={prefix}")
            return project / "build", made

        build, made = configure(f"{major}.0")
        self.same("CMake finds it", made, DONE)
        self.same("CMake builds", run("cmake", "--build", build), DONE)
        self.prints_the_day("a host with CMake's shared target", build / "shared", env={})
        self.prints_the_day("a host with CMake's static target", build / "static", env={})
        for other in (f"{major + 1}.0", f"{major}.999"):
            made = configure(other)[1]
            self.same(f"CMake refuses version {other}", (made.status != 0, made.err), (True, Part("taskgraph")))

    def manual(self, prefix, names):
        commands = ["pack", "show", "check", "draw", "run"]
        pages = (("man3/taskgraph.3", names), ("man1/day-list.1", ["day-list"]), ("man1/jobsheet.1", commands))
        for page, wanted in pages:
            shown = run("groff", "-man", "-Tascii", "-P-cbou", "-ww", prefix / "share/man" / page)
            self.same(f"{page} without a warning", (shown.status, shown.err), (0, ""))
            body = shown.out.split("DESCRIPTION")[-1] if page.endswith("3") else shown.out
            missing = [name for name in wanted if name + ("(" if page.endswith("3") else " ") not in body]
            self.same(f"what {page} has not", missing, [])

    def day_list(self, prefix, folder):
        (folder / "link").symlink_to(prefix / "bin/day-list")
        for name in (prefix / "bin/day-list", folder / "link"):
            self.prints_the_day(f"the installed {name.name}", name, SHEET, cwd="/", env={"PATH": "/usr/bin:/bin"})
        program, away = prefix / "libexec/taskgraph/daylist", folder / "away"
        program.rename(away)
        ran = run(prefix / "bin/day-list", SHEET)
        self.same("the program is missing", ran, (2, ANY, Part("the program is missing")))
        away.rename(program)

    def jobsheet(self, prefix):
        """The installed program, with nothing of the repository about it."""
        checked = f"{SHEET} (bytes): 4 entries, all accepted\n"
        for words, wanted in ((["--version"], "jobsheet "), (["check", SHEET], checked)):
            ran = run(prefix / "bin/jobsheet", *words, cwd="/", env={})
            self.same(f"the installed jobsheet {words[0]}", ran, (0, Start(wanted), ANY))

    def uninstall(self, prefix):
        """Files of others stay."""
        (prefix / "lib/other").write_text("")
        done = install("--uninstall", prefix)
        self.same("uninstall", (*done, files(prefix)), (*DONE, ["lib/other"]))
        self.same("no folder of its own is left", list(prefix.rglob("taskgraph*")), [])
        self.same("nothing to uninstall", install("--uninstall", prefix), (2, ANY, Part("nothing is installed")))

    def test_refusals(self):
        folder = self.folder()
        plain = folder / "plain"
        plain.write_text("")
        for name, words, status in (
            ("no PREFIX", [], 2), ("an empty PREFIX", [""], 2), ("two", [folder, folder], 2), ("an option", ["-x"], 2),
            ("a space", [folder / "a b"], 2), ("a file as PREFIX", [plain], 1), ("below a file", [plain / "x"], 1),
        ):
            ran = install(*words)
            last = ran.err.splitlines()[-1:]
            self.same(f"install: {name}", (*ran, last), (status, "", ANY, [Start("install: ")]))
        self.same("install --help", install("--help"), (0, Start("usage: install PREFIX"), ANY))

    def test_building(self):
        """The library is built where it is missing or its sources have changed, and only there: in a small repository
        with a scripts/library that proves nothing and counts its calls."""
        texts = {"crates.txt": "one:\n", "crates/one/src/lib.rt": "one\n", "scripts/library": LIBRARY,
                 "scripts/day-list": "", "scripts/jobsheet": "", "calls": ""}
        folder = small_repository(self.folder(), ("install", "man-page", "sources"), texts)
        prefix, source = folder / "prefix", folder / "crates/one/src/lib.rt"
        for place in ("include", "packaging"):
            shutil.copytree(TOP / place, folder / place)
        for place in ("crates/daylist/out", "target/bin", "target/staticlib"):
            (folder / place).mkdir(parents=True)
        for path, place in ((ARCHIVE, ""), (SHARED, ""), (DAYLIST, "crates/daylist/out"), (JOBSHEET, "target/bin")):
            shutil.copy(path, folder / place)

        def installs(name, status, calls):
            done = run("bash", folder / "scripts/install", prefix)
            self.same(name, (*done, (folder / "calls").read_text().count("called")), (status, ANY, ANY, calls))

        installs("the library is missing", 0, 1)
        installs("nothing has changed", 0, 1)
        before = files(prefix)
        source.write_text("two\n")
        (folder / "refuse").touch()
        installs("the library cannot be built", 1, 2)
        self.same("and nothing is touched", (len(before) > 9, files(prefix)), (True, before))
        (folder / "refuse").unlink()
        installs("a source has changed", 0, 3)
