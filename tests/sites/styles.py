"""Modulefiles in the styles of sites (the folder examples), and in the forms of the generators of Spack and EasyBuild
(the folder generated), loaded, shown and unloaded by the built program.

The expected values are typed by hand from modulefile(5) and the rules of the program; those of the generated forms are
what Environment Modules 5.2 makes of the same loads. What a command prints is evaluated by sh, and the next command
starts from there. The verdicts are those of modcheck.
"""

import os
import re
import shutil
import subprocess

from tests.lib.examples import wording
from tests.lib.harness import HERE, SECONDS, evaluated, same

TOP = os.path.dirname(HERE)

GCC = {
    "CC": "gcc",
    "CXX": "g++",
    "FC": "gfortran",
    "GCC_HOME": "/opt/gcc/13.2.0",
    "PATH": "/opt/gcc/13.2.0/bin:/usr/bin:/bin",
    "MANPATH": "/opt/gcc/13.2.0/share/man",
    "INFOPATH": "/opt/gcc/13.2.0/share/info",
    "LD_LIBRARY_PATH": "/opt/gcc/13.2.0/lib64:/opt/gcc/13.2.0/lib",
    "__MODULES_LMCONFLICT": "gcc/13.2.0&gcc&clang&intel",
}


class Site:
    """A folder of modulefiles, and an environment that commands change."""

    def __init__(self, folder, of="examples", **variables):
        self.folder = folder
        shutil.copytree(os.path.join(HERE, "sites", of), os.fsdecode(folder.modules), dirs_exist_ok=True)
        self.env = folder.environment(PATH="/usr/bin:/bin", **variables)
        self.start = dict(self.env)

    def accepts(self, words, said):
        done = self.folder.run("sh", *words.split(), env=self.env)
        same(done.stderr.decode(), said, f"standard error of {words}")
        same(done.returncode, 0, f"status of {words}")
        return evaluated(done.stdout, self.env)

    def loads(self, name, said="", **values):
        """A load sets these variables, None for an unset, and enters the module last in the loaded lists."""
        wanted = dict(self.env)
        lists = ((b"LOADEDMODULES", name.encode()), (b"_LMFILES_", self.folder.at(name)))
        for variable, entry in lists:
            wanted[variable] = b":".join(filter(None, (wanted.get(variable), entry)))
        for variable, value in values.items():
            wanted.pop(variable.encode(), None)
            if value is not None:
                wanted[variable.encode()] = value.encode()
        self.env = self.accepts(f"load {name}", said)
        same(self.env, wanted, f"the environment after load {name}")

    def unloads(self, name, said=""):
        self.env = self.accepts(f"unload {name}", said)

    def is_back(self, **values):
        """The environment is the start, but for these variables, None for one that isn't set."""
        wanted = dict(self.start)
        for variable, value in values.items():
            wanted.pop(variable.encode(), None)
            if value is not None:
                wanted[variable.encode()] = value.encode()
        same(self.env, wanted, "the environment in the end")

    def refuses(self, words, text):
        self.folder.refuses(["sh", *words.split()], text, env=self.env)

    def shows(self, name, *lines, shell="sh"):
        """`show` reports these lines behind that of the path."""
        report = b"".join(line.encode() + b"\n" for line in lines)
        self.folder.answers([shell, "show", name], b"", self.folder.at(name) + b":\n" + report, 0, env=self.env)

    def describes(self, name, *lines):
        report = b"".join(f"{name}: {line}\n".encode() for line in lines)
        self.folder.answers(["sh", "whatis", name], b"", report, 0, env=self.env)

    def judges(self, checker, *names):
        """What modcheck says of these modules, loaded one after another."""
        lines = "".join(f"load {name}\n" for name in names).encode()
        done = subprocess.run(
            [checker, "sh"], env=self.env, input=lines, capture_output=True, timeout=SECONDS, check=False
        )
        said = done.stderr.decode().splitlines()
        same(said[: len(names)], [f"{number} accepted" for number in range(1, len(names) + 1)], f"the loads of {names}")
        return dict(line.split(": ", 1) for line in said[len(names) :])


def test_a_compiler(folder):
    site = Site(folder)
    site.loads("gcc/13.2.0", **GCC)
    site.refuses("load clang", wording(51, "gcc/13.2.0"))
    site.unloads("gcc")
    site.is_back()
    site.describes("gcc/13.2.0", "GNU compilers for C, C++ and Fortran", "Version: 13.2.0")
    site.shows(
        "gcc/13.2.0",
        "module-whatis {GNU compilers for C, C++ and Fortran}",
        "module-whatis {Version: 13.2.0}",
        "conflict gcc",
        "conflict clang intel",
        "setenv CC gcc",
        "setenv CXX g++",
        "setenv FC gfortran",
        "setenv GCC_HOME /opt/gcc/13.2.0",
        "prepend-path PATH /opt/gcc/13.2.0/bin",
        "prepend-path MANPATH /opt/gcc/13.2.0/share/man",
        "prepend-path INFOPATH /opt/gcc/13.2.0/share/info",
        "prepend-path LD_LIBRARY_PATH /opt/gcc/13.2.0/lib64:/opt/gcc/13.2.0/lib",
    )


def test_a_compiler_over_that_of_the_user(folder):
    site = Site(folder, CC="cc")
    site.loads(
        "clang/17",
        CC="clang",
        CXX="clang++",
        PATH="/opt/llvm/17/bin:/usr/bin:/bin",
        __MODULES_PUSHENV_CC="clang/17&clang:&cc",
        __MODULES_PUSHENV_CXX="clang/17&clang++",
        __MODULES_LMCONFLICT="clang/17&gcc&clang",
    )
    site.refuses("load gcc", wording(51, "clang/17"))
    site.unloads("clang")
    site.is_back()


MPI = {
    "MPI_HOME": "/opt/openmpi/4.1.6",
    "OMPI_MCA_btl": "self,vader,tcp",
    "PATH": "/opt/openmpi/4.1.6/bin:/opt/gcc/13.2.0/bin:/usr/bin:/bin",
    "LD_LIBRARY_PATH": "/opt/openmpi/4.1.6/lib:/opt/gcc/13.2.0/lib64:/opt/gcc/13.2.0/lib",
    "MANPATH": "/opt/openmpi/4.1.6/share/man:/opt/gcc/13.2.0/share/man",
    "PKG_CONFIG_PATH": "/opt/openmpi/4.1.6/lib/pkgconfig",
    "__MODULES_LMCONFLICT": "gcc/13.2.0&gcc&clang&intel:openmpi/4.1.6&openmpi&mpich&intel-mpi",
    "__MODULES_LMPREREQ": "openmpi/4.1.6&gcc|clang",
}


def test_a_library_that_needs_a_compiler(folder):
    site = Site(folder)
    site.refuses("load openmpi", wording(52, "gcc clang"))
    site.loads("gcc/13.2.0", **GCC)
    site.loads("openmpi/4.1.6", **MPI)
    site.refuses("unload gcc", wording(53, "openmpi/4.1.6"))
    site.describes("openmpi/4.1.6", "Name: openmpi", "Version: 4.1.6", "Needs: a compiler")
    site.unloads("openmpi")
    site.unloads("gcc")
    site.is_back()
    site.shows(
        "openmpi/4.1.6",
        "module-whatis {Name: openmpi}",
        "module-whatis {Version: 4.1.6}",
        "module-whatis {Needs: a compiler}",
        "prereq gcc clang",
        "conflict openmpi mpich intel-mpi",
        "setenv MPI_HOME /opt/openmpi/4.1.6",
        "setenv OMPI_MCA_btl self,vader,tcp",
        "prepend-path PATH /opt/openmpi/4.1.6/bin",
        "prepend-path LD_LIBRARY_PATH /opt/openmpi/4.1.6/lib",
        "prepend-path MANPATH /opt/openmpi/4.1.6/share/man",
        "append-path PKG_CONFIG_PATH /opt/openmpi/4.1.6/lib/pkgconfig",
    )


def test_a_library_whose_directories_a_procedure_adds(folder):
    site = Site(folder)
    site.loads("gcc/13.2.0", **GCC)
    site.refuses("load hdf5", wording(52, "openmpi"))
    site.loads("openmpi/4.1.6", **MPI)
    site.loads(
        "hdf5/1.14",
        PATH="/opt/hdf5/1.14/bin:" + MPI["PATH"],
        LD_LIBRARY_PATH="/opt/hdf5/1.14/lib64:" + MPI["LD_LIBRARY_PATH"],
        CPATH="/opt/hdf5/1.14/include:/opt/hdf5/1.14/include/fortran",
        HDF5_DIR="/opt/hdf5/1.14",
        __MODULES_LMPREREQ="openmpi/4.1.6&gcc|clang:hdf5/1.14&openmpi",
    )
    site.env = site.accepts("purge", "")
    site.is_back()
    site.shows(
        "hdf5/1.14",
        "prereq openmpi",
        "prepend-path PATH /opt/hdf5/1.14/bin",
        "prepend-path LD_LIBRARY_PATH /opt/hdf5/1.14/lib64",
        "append-path CPATH /opt/hdf5/1.14/include",
        "append-path CPATH /opt/hdf5/1.14/include/fortran",
        "setenv HDF5_DIR /opt/hdf5/1.14",
    )


def test_a_program_with_license_servers(folder):
    site = Site(folder, LM_LICENSE_FILE="1700@old", SOLVER_HOME="/home/u/solver", SOLVER_OPTIONS="quiet")
    site.loads(
        "solver/2024",
        SOLVER_LICENSES="27000@lic1.example.org;1055:lic2.example.org",
        SOLVER_OPTIONS="quiet,batch,nogui",
        LM_LICENSE_FILE="1700@old:27000@lic1.example.org",
        SOLVER_HOME="/opt/solver/2024",
        __MODULES_PUSHENV_SOLVER_HOME="solver/2024&/opt/solver/2024:&/home/u/solver",
        PATH="/opt/solver/2024/bin:/usr/bin:/bin",
    )
    site.unloads("solver")
    site.is_back()
    site.describes("solver/2024", "Solver 2024 (licensed)")
    site.shows(
        "solver/2024",
        "module-whatis {Solver 2024 (licensed)}",
        "append-path --delim {;} SOLVER_LICENSES {27000@lic1.example.org;1055:lic2.example.org}",
        "append-path --delim , SOLVER_OPTIONS batch,nogui",
        "append-path LM_LICENSE_FILE 27000@lic1.example.org",
        "pushenv SOLVER_HOME /opt/solver/2024",
        "prepend-path PATH /opt/solver/2024/bin",
    )


def test_paths_that_are_computed_from_the_version(folder):
    site = Site(folder)
    effects = {
        "PYTHON_VERSION": "3.11",
        "PATH": "/opt/python/3.11.6/bin:/usr/bin:/bin",
        "MANPATH": "/opt/python/3.11.6/share/man",
        "PYTHONPATH": "/opt/python/3.11.6/lib/python3.11/site-packages",
    }
    site.loads("python/3.11.6", **effects)
    site.unloads("python")
    site.is_back()
    site.describes("python/3.11.6", "Python 3.11, release 6")
    # What an unset without a value took away doesn't come back.
    site = Site(folder, PYTHONHOME="/home/u/python")
    site.loads("python/3.11.6", PYTHONHOME=None, **effects)
    site.unloads("python")
    site.is_back(PYTHONHOME=None)


def test_a_file_that_speaks(folder):
    site = Site(folder)
    site.loads("greeting/1", said="Loading greeting/1\n", GREETING="hello")
    site.unloads("greeting", said="Unloading greeting/1\n")
    site.is_back()
    site.describes("greeting/1", "a greeting")
    site.shows("greeting/1", "setenv GREETING hello")


def test_directories_of_several_architectures(folder):
    root = "/opt/toolbox/5.0"
    libraries = f"{root}/x86_64/lib:{root}/x86_64/lib64:{root}/noarch/lib"
    site = Site(folder, CPATH="/home/u/include")
    site.loads(
        "toolbox/5.0",
        PATH=f"{root}/sbin:{root}/bin:/usr/bin:/bin",
        MANPATH=f"{root}/man",
        INFOPATH=f"{root}/info",
        CPATH=f"{root}/include:/home/u/include",
        PKG_CONFIG_PATH=f"{root}/lib/pkgconfig",
        ACLOCAL_PATH=f"{root}/share/aclocal",
        CMAKE_PREFIX_PATH=root,
        LD_LIBRARY_PATH=libraries,
        LIBRARY_PATH=libraries,
        TOOLBOX_SLOT_1="10",
        TOOLBOX_SLOT_2="20",
        TOOLBOX_SLOT_3="30",
    )
    site.unloads("toolbox")
    site.is_back()


def test_a_start_file_for_each_shell(folder):
    site = Site(folder)
    site.loads("profile/1", PROFILE_INIT="/opt/profile/etc/init.sh", PROFILE_KIND="b")
    site.unloads("profile")
    site.is_back()
    for shell, end, kind in (("zsh", "sh", "b"), ("csh", "csh", "c"), ("tcsh", "csh", "c"), ("fish", "fish", "b")):
        lines = (f"setenv PROFILE_INIT /opt/profile/etc/init.{end}", f"setenv PROFILE_KIND {kind}")
        site.shows("profile/1", *lines, shell=shell)


def test_directories_of_the_user(folder):
    site = Site(folder, HOME="/home/u", MAIL_CHECK="60")
    paths = {"WORK_CACHE": "/home/u/.cache/work", "WORK_TMP": "/tmp/work", "MAIL_CHECK": None}
    site.loads("workdir/1", WORK_DEPTH="4", **paths)
    site.unloads("workdir")
    site.is_back()
    site = Site(folder, HOME="/home/u", TMPDIR="/var/tmp", WORK_LEVEL="3")
    site.loads("workdir/1", WORK_DEPTH="12", **{**paths, "WORK_TMP": "/var/tmp/work"})
    site = Site(folder, HOME="/home/u", WORK_LEVEL="deep")
    site.loads("workdir/1", said="WORK_LEVEL 'deep' is no digit: 1 is taken\n", WORK_DEPTH="4", **paths)
    Site(folder).refuses("load workdir", wording(20))


def test_plugins_for_the_compiler_that_is_loaded(folder):
    site = Site(folder)
    site.refuses("load plugins", wording(20))
    site.loads("gcc/13.2.0", **GCC)
    site.loads("plugins/2.3", PLUGIN_PATH="/opt/plugins/2.3/gcc:/opt/plugins/shared", PLUGIN_API="v2")
    site.unloads("plugins")
    site.unloads("gcc")
    site.is_back()


# Files in the forms of generators. The full names are long, so these stand for them.

RUNTIME, ZLIB, OPENMPI, HDF5 = SPACK = (
    "gcc-runtime/12.3.0-gcc-12.3.0-5qazqnv",
    "zlib-ng/2.1.6-gcc-12.3.0-7gdnbm2",
    "openmpi/4.1.6-gcc-12.3.0-lsu5pzp",
    "hdf5/1.14.3-gcc-12.3.0-ckfkwtv",
)
STACK = "/opt/spack/linux-debian12-x86_64_v3/gcc-12.3.0"


def loads_all(site, *names):
    for name in names:
        site.env = site.accepts(f"load {name}", "")


def test_files_of_spack_that_name_what_they_need(folder, built):
    site = Site(folder, of="generated/spack")
    site.refuses("load hdf5", wording(52, RUNTIME))
    loads_all(site, RUNTIME, ZLIB)
    effects = {
        "PATH": f"{STACK}/openmpi-4.1.6-lsu5pzp/bin:/usr/bin:/bin",
        "MANPATH": f"{STACK}/openmpi-4.1.6-lsu5pzp/share/man:",
        "PKG_CONFIG_PATH": f"{STACK}/openmpi-4.1.6-lsu5pzp/lib/pkgconfig:{STACK}/zlib-ng-2.1.6-7gdnbm2/lib/pkgconfig",
        "CMAKE_PREFIX_PATH": f"{STACK}/openmpi-4.1.6-lsu5pzp/.:{STACK}/zlib-ng-2.1.6-7gdnbm2/.:"
        f"{STACK}/gcc-runtime-12.3.0-5qazqnv/.",
        "OPENMPI_ROOT": f"{STACK}/openmpi-4.1.6-lsu5pzp",
        "__MODULES_LMCONFLICT": f"{RUNTIME}&gcc-runtime:{ZLIB}&zlib-ng:{OPENMPI}&openmpi",
        "__MODULES_LMPREREQ": f"{ZLIB}&{RUNTIME}:{OPENMPI}&{RUNTIME}&{ZLIB}",
    }
    programs = {"MPICC": "mpicc", "MPICXX": "mpic++", "MPIF77": "mpif77", "MPIF90": "mpif90"}
    effects.update({name: f"{STACK}/openmpi-4.1.6-lsu5pzp/bin/{end}" for name, end in programs.items()})
    site.loads(OPENMPI, **effects)
    loads_all(site, "hdf5")
    site.refuses("unload openmpi", wording(53, HDF5))
    site.describes(HDF5, "Files of arrays and tables in folders of their own, written from many processes.")
    site.env = site.accepts("purge", "")
    site.is_back()
    same(site.judges(built("modcheck"), *SPACK), dict.fromkeys(SPACK, "Plain"), "the verdicts")


def test_files_of_spack_that_load_others(folder):
    """The default of Spack is refused; an older form is accepted where what it needs is there."""
    site = Site(folder, of="generated/spack")
    loads_all(site, *SPACK)
    site.refuses("load fftw", wording(19, "module"))
    loads_all(site, "netcdf-c")
    same(site.env[b"NETCDF_C_ROOT"], f"{STACK}/netcdf-c-4.7.4-d3bgb4w".encode(), "a value of netcdf-c")
    site.env = site.accepts("purge", "")
    site.is_back()
    site.refuses("load netcdf-c", wording(19, "module"))


def test_files_of_spack_that_hide_a_version(folder):
    site = Site(folder, of="generated/spack")
    path = folder.file("zlib-ng/.modulerc", f"#%Module4.7\nmodule-hide --soft --hidden-loaded {ZLIB}\n")
    loads_all(site, RUNTIME)
    site.refuses("load zlib-ng", wording(45, os.fsdecode(path)))
    loads_all(site, ZLIB)


CORE = "GCCcore/12.3.0"
ZLIB_OF_CORE = "zlib/1.2.13-GCCcore-12.3.0"
BINUTILS = "binutils/2.40-GCCcore-12.3.0"


def test_files_of_easybuild_that_load_what_is_not_there(folder):
    """They are accepted while what they need is loaded, at the load and at the unload."""
    site = Site(folder, of="generated/easybuild")
    site.refuses("load zlib", wording(19, "module"))
    folder.module("zlib/9", "")
    folder.file("zlib/.version", f"#%Module\nset ModulesVersion {ZLIB_OF_CORE.removeprefix('zlib/')}\n")
    loads_all(site, "GCCcore", "zlib", "binutils")
    same(site.env[b"LOADEDMODULES"].decode(), f"{CORE}:{ZLIB_OF_CORE}:{BINUTILS}", "the loaded modules")
    for name, value in (
        ("PATH", f"/apps/software/{BINUTILS}/bin:/apps/software/{CORE}/bin:/usr/bin:/bin"),
        ("CMAKE_LIBRARY_PATH", f"/apps/software/{CORE}/lib64"),
        ("EBVERSIONBINUTILS", "2.40"),
        ("EBDEVELBINUTILS", f"/apps/software/{BINUTILS}/easybuild/binutils-2.40-GCCcore-12.3.0-easybuild-devel"),
    ):
        same(site.env[name.encode()].decode(), value, name)
    site.unloads("GCCcore")
    site.refuses("purge", wording(19, "module"))
    loads_all(site, "GCCcore")
    site.unloads("binutils zlib GCCcore")
    site.is_back()
    site.loads(
        "EasyBuild/4.9.0",
        said="EasyBuild 4.9.0 is loaded\n",
        PATH="/apps/software/EasyBuild/4.9.0/bin:/usr/bin:/bin",
        PYTHONPATH="/apps/software/EasyBuild/4.9.0/lib/python3.11/site-packages",
        EBROOTEASYBUILD="/apps/software/EasyBuild/4.9.0",
        EBVERSIONEASYBUILD="4.9.0",
        EBDEVELEASYBUILD="/apps/software/EasyBuild/4.9.0/easybuild/EasyBuild-4.9.0-easybuild-devel",
        EB_PYTHON="python3",
        __MODULES_LMCONFLICT="EasyBuild/4.9.0&EasyBuild",
    )
    site.unloads("EasyBuild")
    site.is_back()


def test_files_of_easybuild_that_always_load(folder):
    site = Site(folder, of="generated/easybuild")
    loads_all(site, "GCCcore")
    site.refuses("load bzip2", wording(19, "depends-on"))
    loads_all(site, "XZ")
    site.refuses("unload XZ", wording(19, "module"))


def hook_of_the_guide(program):
    """The function of docs/SITES.md by which EasyBuild writes other files, with this program."""
    with open(os.path.join(TOP, "docs", "SITES.md"), encoding="utf-8") as file:
        block = re.search(r"```python\n(.*?)```", file.read(), re.DOTALL)[1]
    made = {}
    exec(block.replace("/opt/modulecmd/bin/modport", program), made)  # noqa: S102
    return made["module_write_hook"]


def test_files_of_easybuild_through_the_hook_of_the_guide(folder, built):
    site = Site(folder, of="generated/easybuild")
    hook = hook_of_the_guide(str(built("modport")))
    bzip2 = "bzip2/1.0.8-GCCcore-12.3.0"
    for name in (CORE, ZLIB_OF_CORE, BINUTILS, bzip2):
        path = os.fsdecode(folder.at(name))
        with open(path, encoding="utf-8") as file:
            text = file.read()
        folder.file(name, hook(None, path, text))
    site.refuses("load binutils", wording(52, CORE))
    loads_all(site, "GCCcore", "zlib", "binutils", "bzip2")
    needs = f"{ZLIB_OF_CORE}&{CORE}:{BINUTILS}&{CORE}&{ZLIB_OF_CORE}:{bzip2}&{CORE}"
    same(site.env[b"__MODULES_LMPREREQ"].decode(), needs, "the needs")
    site.refuses("unload zlib", wording(53, BINUTILS))
    site.env = site.accepts("purge", "")
    site.is_back()
    names = (CORE, ZLIB_OF_CORE, BINUTILS, bzip2)
    same(site.judges(built("modcheck"), *names), dict.fromkeys(names, "Plain"), "the verdicts")
