"""How much memory a command needs."""
import resource
import subprocess

MIB = 1 << 20


def needs(arguments):
    """The least address space with which a command ends well, to 64 KiB; at most 256 MiB is tried."""

    def runs(limit):
        def limited():
            resource.setrlimit(resource.RLIMIT_AS, (limit, limit))

        child = subprocess.run(arguments, preexec_fn=limited, stdout=subprocess.DEVNULL, stderr=subprocess.DEVNULL)
        return child.returncode == 0

    low, high = 0, 256 * MIB
    while high - low > 65536:
        middle = (low + high) // 2
        low, high = (low, middle) if runs(middle) else (middle, high)
    return high
