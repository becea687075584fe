"""A Slurm of this machine alone: munged, slurmctld and slurmd in one folder, started by hand and stopped again."""
import os
import shutil
import socket
import subprocess
import time
from typing import Any

WANTED = ("munged", "slurmctld", "slurmd", "sbatch", "srun")
SEARCHED = os.environ["PATH"] + ":/usr/sbin:/sbin"
CONFIG = """
ClusterName=here
SlurmctldHost={host}(127.0.0.1)
SlurmUser=root
AuthInfo=socket={folder}/munge.socket
SlurmctldPort={ports[0]}
SlurmdPort={ports[1]}
StateSaveLocation={folder}/state
SlurmdSpoolDir={folder}/spool
SlurmctldPidFile={folder}/slurmctld.pid
SlurmdPidFile={folder}/slurmd.pid
SlurmctldLogFile={folder}/slurmctld.log
SlurmdLogFile={folder}/slurmd.log
ProctrackType=proctrack/linuxproc
TaskPlugin=task/none
SelectType=select/cons_tres
SelectTypeParameters=CR_Core_Memory
DefMemPerCPU=1000
MpiDefault=none
ReturnToService=2
NodeName={host} NodeAddr=127.0.0.1 CPUs={processors} RealMemory={memory} State=UNKNOWN
PartitionName=all Nodes={host} Default=YES MaxTime=INFINITE State=UP
"""


def is_installed() -> bool:
    return os.getuid() == 0 and all(shutil.which(name, path=SEARCHED) for name in WANTED)


def free_ports(count: int) -> list[int]:
    held = [socket.socket() for _ in range(count)]
    for one in held:
        one.bind(("127.0.0.1", 0))
    ports = [one.getsockname()[1] for one in held]
    for one in held:
        one.close()
    return ports


class Slurm:
    """Runs while a `with` lasts; `environment` is what its clients want."""

    def __init__(self, folder: str) -> None:
        self.folder, self.started = os.path.abspath(folder), list[subprocess.Popen[bytes]]()
        self.environment = {"SLURM_CONF": f"{self.folder}/slurm.conf", "USER": os.environ.get("USER", "root")}

    def start(self, *arguments: Any) -> None:
        with open(f"{self.folder}/{arguments[0]}.said", "wb") as said:
            self.started.append(
                subprocess.Popen(
                    [shutil.which(arguments[0], path=SEARCHED), *arguments[1:]],
                    stdin=subprocess.DEVNULL,
                    stdout=said,
                    stderr=said,
                    env=os.environ | self.environment,
                )
            )

    def write_config(self) -> None:
        host = socket.gethostname().partition(".")[0]
        memory = os.sysconf("SC_PAGE_SIZE") * os.sysconf("SC_PHYS_PAGES") // 2**20 // 2
        with open(f"{self.folder}/slurm.conf", "w") as file:
            file.write(
                CONFIG.format(
                    host=host, folder=self.folder, ports=free_ports(2), processors=os.cpu_count(), memory=memory
                )
            )

    def wait_until_ready(self) -> None:
        for _ in range(60):
            arguments = ["srun", "--immediate=5", "true"]
            done = subprocess.run(arguments, env=os.environ | self.environment, capture_output=True, text=True)
            if done.returncode == 0:
                return
            time.sleep(1)
        raise RuntimeError(f"Slurm doesn't start: {done.stderr.strip()}; {self.folder} has its logs")

    def __enter__(self) -> "Slurm":
        for name in ("", "/state", "/spool"):
            os.makedirs(self.folder + name, mode=0o755)
        with open(f"{self.folder}/munge.key", "wb") as file:
            os.fchmod(file.fileno(), 0o400)
            file.write(os.urandom(128))
        self.write_config()
        self.start(
            "munged",
            "--foreground",
            f"--key-file={self.folder}/munge.key",
            f"--socket={self.folder}/munge.socket",
            f"--pid-file={self.folder}/munged.pid",
            f"--log-file={self.folder}/munged.log",
            f"--seed-file={self.folder}/munged.seed",
        )
        time.sleep(1)
        self.start("slurmctld", "-D")
        self.start("slurmd", "-D")
        try:
            self.wait_until_ready()
        except BaseException:
            self.stop()
            raise
        return self

    def stop(self) -> None:
        for process in reversed(self.started):
            process.terminate()
            try:
                process.wait(30)
            except subprocess.TimeoutExpired:
                process.kill()
                process.wait()

    def __exit__(self, *_: object) -> None:
        self.stop()
