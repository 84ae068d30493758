"""bin/release."""
import os
import re

from support import Tags, TOP, wants

KEPT = ("README.md", "CHANGELOG.md", "CONTRIBUTING.md", "bench/README.md", "cases/README.md", "python/mrp.py")


def tree_of_one_commit(room):
    """Makes the folder `tree`, a checkout whose one commit has what a release takes, and beside it `own`, a program,
    and `lib`, what stands for a library.
    """
    wants("git")
    wants("dpkg-deb")
    room.run(
        f"mkdir -p tree/bench tree/cases tree/python tree/tools lib && cp -r {TOP}/{{bin,completions,docs,examples,include}} tree"
    )
    room.run("echo archive > lib/libmrp.a && echo GLIBC_9.87.6 > lib/libmrp.so")
    room.variables["MRP_LIBRARY"] = f"{room.folder}/lib/libmrp.so"
    for it in KEPT:
        room.run(f"cp {TOP}/{it} tree/{it}")
    if room.program:
        room.run(f"cp {room.program} own")
    else:
        room.stand_in("own", "versioned")
    commit(room, "The first")


def commit(room, text):
    """Commits all of `tree`, by nobody in particular."""
    variables = "GIT_CONFIG_GLOBAL=/dev/null GIT_AUTHOR_NAME=One GIT_AUTHOR_EMAIL=one@none GIT_COMMITTER_NAME=One GIT_COMMITTER_EMAIL=one@none"
    room.run(f"cd tree && export {variables} && git init -q . && git add -A && git commit -qm '{text}'")


def test_release_holds_what_it_says(room):
    """Both archives have the program, tools, man page, completions, examples and docs, with sums that match; links
    lead to files, but to those of crates.
    """
    tree_of_one_commit(room)
    version, archive, package = (
        room.run("./own --version").split()[1].rstrip(","),
        *room.run("MRP=./own tree/bin/release --unproved one").split()[:2],
    )
    assert (archive, package) == (
        f"one/mrp-{version}~unproved-linux-x86_64.tar.gz",
        f"one/mrp_{version}~unproved_amd64.deb",
    )
    room.run(
        f"cd one && sha256sum --quiet -c SHA256SUMS && tar xf ../{archive} && mv mrp-*64 ../new && cd ../new && sha256sum --quiet -c SHA256SUMS"
    )
    files = room.run("cd new && find . -type f ! -name SHA256SUMS | sort")
    assert room.run("cd new && awk '{ print \"./\" $2 }' SHA256SUMS | sort") == files
    for it in (
        "man/man1/mrp.1",
        "bash-completion/completions/mrp",
        "zsh/site-functions/_mrp",
        "fish/vendor_completions.d/mrp.fish",
    ):
        assert f"/share/{it}\n" in files
    assert room.run("cat new/include/mrp.h new/lib/libmrp.a new/lib/libmrp.so") == room.run(
        "cat tree/include/mrp.h lib/libmrp.a lib/libmrp.so"
    )
    assert room.run("head -n 1 new/PROOF") == room.run("new/bin/mrp --version")
    said = room.run("cat new/PROOF")
    assert f"commit {room.run('git -C tree rev-parse HEAD').strip()} of " in said
    assert "UNPROVED" in said
    assert room.run("sha256sum < own").split()[0] in said
    assert room.run("for it in examples docs/[a-z]*.md; do diff -r tree/$it new/$it; done") == ""
    for page in room.run("cd new && find . -name '*.md'").split():
        with open(f"{room.folder}/new/{page}", encoding="utf-8") as file:
            links = [
                os.path.normpath(f"{os.path.dirname(page)}/{it}")
                for it in re.findall(r"\]\(([^)#:]+)[^)]*\)", file.read())
            ]
        assert [
            it for it in links if not it.startswith("crates/") and not os.path.exists(f"{room.folder}/new/{it}")
        ] == [], page
    room.run(
        f"dpkg-deb -x {package} root && dpkg-deb -e {package} control && cd root && md5sum --quiet -c ../control/md5sums"
    )
    wanted = (
        f"\nVersion: {version}~unproved\n",
        "\nDepends: libc6 (>= 9.87.6)\n",
        "\nRecommends: python3\n",
        "\nMaintainer: One <one@none>\n",
    )
    said = room.run("cat control/control")
    assert [it for it in wanted if it not in said] == []
    assert {it.split()[1] for it in room.run(f"dpkg-deb -c {package}").splitlines()} == {"root/root"}
    assert (
        room.run(
            "diff -r new/docs root/usr/share/doc/mrp/docs; for it in include lib; do diff -r new/$it root/usr/$it; done"
        )
        == ""
    )
    for it in ("examples", "python"):
        assert room.run(f"diff -r new/{it} root/usr/share/mrp/{it}; diff -r new/{it} root/usr/share/doc/mrp/{it}") == ""
    # (names as compare are others' in /usr/bin)
    tools = room.run("ls root/usr/bin").split()
    assert (tools[0], room.run("ls new/bin").split()) == (
        "mrp",
        sorted([*tools, *(it.removeprefix("mrp-") for it in tools[1:])]),
    )
    assert (
        room.run("for it in new/bin/mrp-*; do cmp $it new/bin/${it#new/bin/mrp-}; cmp $it root/usr/bin/${it##*/}; done")
        == ""
    )
    assert room.run("zcat root/usr/share/man/man1/mrp.1.gz") == room.run("cat new/share/man/man1/mrp.1")
    pages = sorted(f"{it}.1" for it in tools)
    assert room.run("ls new/share/man/man1").split() == pages
    assert room.run("ls root/usr/share/man/man1").split() == [f"{it}.gz" for it in pages]
    for it in pages:
        assert room.run(f"zcat root/usr/share/man/man1/{it}.gz") == room.run(f"cat new/share/man/man1/{it}")
    assert (
        room.run("MRP=./own MRP_LIBRARY=none/libmrp.so tree/bin/release --unproved two", status=1)
        == "bin/release: none has no library for C\n"
    )


def test_release_runs_where_it_is_unpacked(room):
    """Tools find what they need beside them, and the program too: neither the checkout nor another mrp is there."""
    tree_of_one_commit(room)
    archive = room.run("MRP=./own tree/bin/release --unproved one").split()[0]
    room.run(f"tar xf {archive} && mv mrp-*64 new && rm -rf tree own && mkdir only && ln -s $(command -v python3) only")
    for it in ("mrp-record", "record"):
        assert (
            room.run(f"cd new && bin/{it} P1 BIKE < examples/bicycle.plan.csv").splitlines()[0]
            == "P1 BIKE: 0 on hand before 2026-01-05"
        )
    assert len(Tags(room.run("cd new && bin/mrp-page < examples/bicycle.plan.csv")).articles) == 2
    room.needs_program()
    alone = "export MRP= MRP_LIBRARY= PATH=$PWD/only; cd new;"
    ask = "import csv, mrp; print(mrp.check(mrp.Table(csv.reader(open('examples/bicycle.csv'))))[1].code)"
    assert room.run(f'{alone} PYTHONPATH=python python3 -c "{ask}"') == "1\n"
    assert room.run(f"{alone} bin/mrp plan < examples/bicycle.csv") == room.run("cat new/examples/bicycle.plan.csv")
    said = room.run(f"{alone} bin/mrp-why P1 WHEEL 1 < examples/bicycle.csv")
    assert "P1 WHEEL: 20 released in period 1" in said
    assert "10 demand" in said
    assert (
        room.run(
            f"({alone} bin/mrp-renew plan.csv plan < examples/bicycle.csv); cmp new/plan.csv new/examples/bicycle.plan.csv"
        )
        == ""
    )


def test_release_is_the_same_each_time(room):
    """From two checkouts of one commit, whose files have other times and modes."""
    tree_of_one_commit(room)
    room.run(
        "MRP=./own tree/bin/release --unproved one; (umask 077; git clone -q tree other); touch -d 2026-01-01 other/docs/*; chmod -R g-w other"
    )
    assert (
        room.run("umask 077; TZ=Asia/Tokyo MRP=$PWD/own other/bin/release --unproved two > /dev/null; diff -r one two")
        == ""
    )


def test_release_is_of_a_proved_program(room):
    """By stand-ins of tools/prove and rt: what isn't proved, of another kit's logic, or of another tree than the
    commit's, is refused.
    """
    tree_of_one_commit(room)
    room.stand_in("words/rt", "release/rt")
    room.write("tree/.gitignore", "out/\n")
    for it in ("prove", "library"):
        room.stand_in(f"tree/tools/{it}", f"release/{it}")
    release = "MRP= MRP_LIBRARY= tree/bin/release new"
    differs = "bin/release: the work tree is not that of its commit: commit or remove what git status lists\n"
    assert room.run(release, status=1) == differs
    commit(room, "With a stand-in")
    version = room.run("./own --version").split()[1].rstrip(",")
    assert room.run(release) == f"new/mrp-{version}-linux-x86_64.tar.gz\nnew/mrp_{version}_amd64.deb\nnew/SHA256SUMS\n"
    assert "\nProved from the sources of its commit by the kit kit logic " in room.run(
        "tar xOf new/*.tar.gz --wildcards '*/PROOF'"
    )
    assert room.run("tar xOf new/*.tar.gz --wildcards '*/libmrp.a' '*/libmrp.so'") == "made\nso\n"
    assert (
        room.run(f"PROVED=1 {release}", status=1)
        == "bin/release: the program and the library for C could not be proved\n"
    )
    assert room.run(f"MADE=1 {release}", status=1) == "bin/release: the library for C could not be made\n"
    said = room.run(f"LOGIC=ff {release}", status=1)
    assert "bin/release: the program names logic " in said
    assert ", and the kit here is kit logic ff\n" in said
    assert room.run(f"echo more >> tree/README.md; {release}", status=1) == differs
    said = room.run(f"git -C tree checkout -q README.md; echo echo > own; {release}", status=1)
    assert "bin/release: " in said
    assert "/out/mrp says no version: \n" in said
    assert "bin/release: MRP names a program of whose proof nothing is known" in room.run(
        "MRP=own tree/bin/release new", status=2
    )
    assert "bin/release: --unproved takes the library beside the libmrp.so that " in room.run(
        "MRP=own MRP_LIBRARY= tree/bin/release --unproved new", status=2
    )
