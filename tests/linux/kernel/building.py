"""Builds the drivers: the kernel's, from code taken out of a source and over the shims; and ours, over the libraries for C."""

import os
import subprocess

HERE = os.path.dirname(os.path.realpath(__file__))
ROOT = os.path.dirname(os.path.dirname(os.path.dirname(HERE)))
C = os.path.join(HERE, "c")
# Warnings about the kernel's own files don't concern us; a name that the shims lack is a fault.
OF_KERNEL = ("-std=gnu11", "-O2", "-g", "-fwrapv", "-fno-strict-aliasing", "-w", "-Werror=implicit-function-declaration")
OF_OURS = ("-std=gnu11", "-O2", "-g", "-Wall", "-Wextra", "-Werror")
LIBRARIES = {"gate": "percpu_gate", "queue": "freeze_queue"}


class CannotBuild(Exception):
    """Why a driver can't be built."""


def run(words):
    try:
        done = subprocess.run(words, capture_output=True, text=True, check=False)
    except OSError as why:
        raise CannotBuild(f"{words[0]}: {why.strerror}") from why
    if done.returncode:
        raise CannotBuild(f"{' '.join(words[:1])} fails:\n{done.stderr[:3000]}")


class Builder:
    """A folder in which drivers are built from a source."""

    def __init__(self, source, folder, compiler="cc", prefix=None):
        self.source, self.folder, self.compiler, self.prefix = source, folder, compiler, prefix
        self.include = os.path.join(folder, "taken")
        os.makedirs(os.path.join(self.include, "linux"), exist_ok=True)
        self.put("linux/percpu-refcount.h", source.whole("include/linux/percpu-refcount.h"))
        self.put("percpu-refcount.c", source.whole("lib/percpu-refcount.c"))

    def put(self, name, text):
        path = os.path.join(self.include, name)
        with open(path, "w", encoding="utf-8", errors="surrogateescape") as it:
            it.write(text)
        return path

    def path(self, name):
        return os.path.join(self.folder, name)

    def includes(self):
        return (f"-I{os.path.join(HERE, 'shims')}", f"-I{self.include}")

    def compiled(self, name, source, *flags):
        """Compiles the kernel's text, or ours over it, into an object file."""
        out = self.path(name)
        run([self.compiler, *flags, *self.includes(), "-c", source, "-o", out])
        return out

    def percpu_ref(self, *flags):
        return self.compiled("percpu-refcount.o", os.path.join(self.include, "percpu-refcount.c"), *OF_KERNEL, *flags)

    def kernel(self, kind):
        """The kernel's driver of a kind: gate or queue."""
        objects = [self.percpu_ref()]
        if kind == "queue":
            self.put("queue.h", queue_text(self.source))
            objects.append(self.compiled("queue_taken.o", os.path.join(C, "queue_taken.c"), *OF_KERNEL))
        for name in (f"{kind}_kernel", "alone"):
            objects.append(self.compiled(f"{name}.o", os.path.join(C, f"{name}.c"), *OF_OURS))
        out = self.path(f"{kind}-kernel")
        run([self.compiler, *objects, "-o", out])
        return out

    def orders(self, *more):
        """The explorer of all orders. The compiler makes a step of each access of the kernel's code to memory."""
        of_ours = (*more, "-fno-omit-frame-pointer", "-DSHIM_MOST_CPUS=2")
        steps = (*of_ours, "-fsanitize=thread")
        objects = [self.percpu_ref(*steps), self.compiled("ref_calls.o", os.path.join(C, "ref_calls.c"), *OF_KERNEL, *steps)]
        for name in ("orders", "orders_actors", "orders_shims"):
            objects.append(self.compiled(f"{name}.o", os.path.join(C, f"{name}.c"), *OF_OURS, *of_ours, "-U_FORTIFY_SOURCE"))
        out = self.path("orders")
        run([self.compiler, *objects, "-o", out])
        return out

    def threads(self, *sanitizer):
        """The kernel's percpu_ref on threads, with these flags of a sanitizer or none."""
        flags = (*sanitizer, "-DSHIM_MOST_CPUS=32", "-DSHIM_DEPENDENT=__ATOMIC_ACQUIRE")
        objects = [self.percpu_ref(*flags), self.compiled("ref_calls.o", os.path.join(C, "ref_calls.c"), *OF_KERNEL, *flags)]
        objects.append(self.compiled("threads.o", os.path.join(C, "threads.c"), *OF_OURS, *flags))
        out = self.path("threads")
        run([self.compiler, *objects, *sanitizer, "-pthread", "-o", out])
        return out

    def ours(self, kind):
        """Our driver of a kind, over the library that is installed at the prefix, or built in the repository."""
        library, out = LIBRARIES[kind], self.path(f"{kind}-ours")
        if self.prefix:
            include, archive = f"{self.prefix}/include", f"{self.prefix}/lib/lib{library}.a"
        else:
            include, archive = f"{ROOT}/c/include", f"{ROOT}/c/out/proved/lib{library}.a"
        if not os.path.isfile(archive):
            raise CannotBuild(f"there is no {archive}: run make install-c, and give its PREFIX as --prefix")
        run([self.compiler, *OF_OURS, f"-I{include}", os.path.join(C, f"{kind}_ours.c"), archive, "-o", out])
        return out


def queue_text(source):
    """The kernel's functions that freeze, enter and limit, in the order in which they need each other."""
    take, maybe = source.function, source.function_if_there
    text = "".join((
        take("block/blk-core.c", "blk_queue_exit"),
        take("block/blk.h", "blk_try_enter_queue"),
        take("block/blk-core.c", "blk_queue_enter"),
        take("block/blk-core.c", "blk_queue_usage_counter_release"),
        maybe("block/blk-mq.c", "__blk_freeze_queue_start"),
        take("block/blk-mq.c", "blk_freeze_queue_start"),
        take("block/blk-mq.c", "blk_mq_freeze_queue_wait"),
        take("block/blk-mq.c", "__blk_mq_unfreeze_queue"),
        take("block/blk-mq.c", "blk_mq_unfreeze_queue", "blk_mq_unfreeze_queue_nomemrestore"),
        take("block/blk-core.c", "blk_queue_start_drain"),
        maybe("include/linux/blkdev.h", "blk_chunk_sectors_left"),
        maybe("include/linux/blkdev.h", "blk_boundary_sectors_left"),
        maybe("block/blk-merge.c", "blk_boundary_sectors"),
        take("block/blk-merge.c", "get_max_io_size"),
    ))
    thaw = next(it.name for it in source.taken if it.name.startswith("blk_mq_unfreeze_queue"))
    return f"#define queue_unfreeze {thaw}\n{text}"
