"""A system of Debian's packages for a virtual machine, and what is tried on it: what is enabled there, and what watches it."""
import shutil
from dataclasses import dataclass

from shared.programs import TOP, run

TEXTS = TOP / "examples/cluster"
PACKAGES = "systemd,systemd-sysv,udev,dbus,linux-image-cloud-amd64,e2fsprogs,iproute2,slurm-wlm,munge"
RELEASE, MEBIBYTES = "bookworm", 1_600
WORK = "srv/ckrt"  # where the second disk is mounted

FSTAB = """LABEL=system / ext4 defaults 0 1
LABEL=work /srv/ckrt ext4 defaults 0 2
"""
WATCHER = """[Service]
ExecStart=/bin/sh /usr/local/lib/watch-%i

[Install]
WantedBy=multi-user.target
"""
# No name is found on a machine that has the address 127.0.0.1 alone, so it is given another one.
ADDRESS = """[Unit]
Before=slurmctld.service slurmd.service

[Service]
Type=oneshot
ExecStart=/bin/ip address add 10.0.0.1/32 dev lo

[Install]
WantedBy=multi-user.target
"""
# A task that a node which registers doesn't have is queued again by the controller, if it has known of it for longer than
# MessageTimeout and BatchStartTimeout. A controller that goes down with its node has begun to know of it just now.
LATER = """[Service]
ExecStartPre=/bin/sh -c 'until scontrol show jobs > /dev/null 2>&1; do sleep 0.5; done; sleep 12'
"""
# Tells on the console which outputs are driven to, and how all has ended. A drive that runs stands behind a format that has answered.
WATCH = """cd /srv/ckrt
tell() {{ echo "machine: $*" > /dev/ttyS0; }}
{begin}
while sleep 0.5; do
    tell drives $(cat /proc/[0-9]*/cmdline 2> /dev/null | tr '\\0' '\\n' | grep -o '[0-9]*[.]out$' | sort)
    {has_ended} && tell ended $({how_ended})
done
"""
# A cluster of one node, whose controller keeps what it knows on the disk whose power is cut.
SLURM = """ClusterName=machine
SlurmctldHost=machine
SlurmUser=root
SlurmdUser=root
AuthInfo=cred_expire=5
MessageTimeout=10
BatchStartTimeout=1
StateSaveLocation=/srv/ckrt/slurm
SlurmdSpoolDir=/var/spool/slurmd
ProctrackType=proctrack/linuxproc
SelectType=select/cons_tres
SelectTypeParameters=CR_CPU
SlurmdParameters=config_overrides
ReturnToService=2
MinJobAge=7200
MpiDefault=none
NodeName=machine CPUs=4
PartitionName=all Nodes=machine Default=YES
"""


@dataclass(frozen=True)
class Machine:
    """What is tried: its guests and units, what its watcher does first, how it asks for the end, and what it is told then."""

    guests: tuple
    units: tuple
    begin: str
    has_ended: str
    how_ended: str
    end: str

    def watch(self):
        return WATCH.format(begin=self.begin, has_ended=self.has_ended, how_ended=self.how_ended)


UNIT = Machine(
    guests=("1",),
    units=("ckrt-drive@1.service",),
    begin=":",
    has_ended="[ \"$(systemctl show -P ExecMainCode ckrt-drive@1)\" = 1 ]",
    how_ended="systemctl show -P ExecMainStatus ckrt-drive@1",
    end="0",
)
# Who gives sbatch gives it again where the controller knows of no such job: it answers before it has saved one.
ARRAY = Machine(
    guests=("1", "2", "3", "4"),
    units=("address.service", "munge.service", "slurmctld.service", "slurmd.service"),
    begin="""until jobs=$(scontrol -o show jobs 2> /dev/null); do sleep 0.5; done
case $jobs in
    *JobName=ckrt*) ;;
    *) tell submits; until sbatch --array=1-4 ckrt-array.sbatch; do sleep 0.5; done ;;
esac""",
    has_ended="[ -z \"$(squeue -h || echo asked in vain)\" ]",
    how_ended="scontrol -o show jobs | grep -oE ' (JobState|ExitCode)=[A-Z0-9:]+' | sort -u",
    end="ExitCode=0:0 JobState=COMPLETED",
)
MACHINES = {"unit": UNIT, "array": ARRAY}


class System:
    """A folder with the system, in which one machine is enabled, and the words that boot it."""

    def __init__(self, folder, ckrt):
        self.folder = folder
        if not folder.exists():
            part = folder.with_name(folder.name + ".part")
            run("debootstrap", "--variant=minbase", f"--include={PACKAGES}", RELEASE, part)
            part.rename(folder)
        self.put("etc/fstab", FSTAB)
        self.put("etc/hostname", "machine\n")
        self.put("etc/hosts", "127.0.0.1 localhost\n10.0.0.1 machine\n")
        self.put("etc/slurm/slurm.conf", SLURM)
        self.put("etc/systemd/system/watcher@.service", WATCHER)
        self.put("etc/systemd/system/address.service", ADDRESS)
        self.put("etc/systemd/system/slurmd.service.d/later.conf", LATER)
        for name, machine in MACHINES.items():
            self.put(f"usr/local/lib/watch-{name}", machine.watch())
        shutil.copy(TEXTS / "ckrt-drive@.service", folder / "etc/systemd/system")
        shutil.copy(ckrt, folder / "usr/local/bin/ckrt")
        (folder / WORK).mkdir(parents=True, exist_ok=True)

    def put(self, path, text):
        (self.folder / path).parent.mkdir(parents=True, exist_ok=True)
        (self.folder / path).write_text(text, encoding="utf-8")

    def save(self, name, image):
        """Makes an image in which the units of one machine are enabled, and no other's."""
        for other, machine in MACHINES.items():
            order = "enable" if other == name else "disable"
            run("chroot", self.folder, "systemctl", "--quiet", order, *machine.units, f"watcher@{other}.service")
        run("mkfs.ext4", "-q", "-F", "-L", "system", "-d", self.folder, image, f"{MEBIBYTES}M")

    def words(self, accel, image, disk, console):
        """Boots an image with a second disk, whose cache is volatile. What is written to the image is forgotten with the machine."""
        kernel, initial = (sorted((self.folder / "boot").glob(f"{name}-*"))[-1] for name in ("vmlinuz", "initrd.img"))
        return ["qemu-system-x86_64", "-accel", accel, "-cpu", "max", "-m", "1024", "-smp", "1",
                "-nodefaults", "-display", "none", "-no-reboot", "-kernel", kernel, "-initrd", initial,
                "-append", "root=LABEL=system rw console=ttyS0 quiet systemd.journald.forward_to_console=1", "-serial", f"file:{console}",
                "-drive", f"file={image},format=raw,if=virtio,snapshot=on",
                "-drive", f"file={disk},format=raw,if=none,id=work,cache=none,aio=native",
                "-device", "virtio-blk-pci,drive=work,logical_block_size=4096,physical_block_size=4096"]
