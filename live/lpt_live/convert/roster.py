"""Who the tasks are: their numbers in the trace, names, thread groups, kinds."""
from typing import Any, Container, Dict, Set

from ..errors import Refused

TOP = 65535                     # the idle task of CPU n has the number TOP - n
IDLE_TASKS = 1024
LAST_NUMBER = TOP - IDLE_TASKS


class Roster:
    """A number from 1 to 65,535 for each task.

    The pid, where it is free: pids are used again, and may be larger, while a trace's numbers are used once; such tasks
    get numbers that no task had, from the top down.
    """

    def __init__(self) -> None:
        self.present: Dict[int, int] = {}       # pid to number, of the pid's latest task
        self.pid_of: Dict[int, int] = {}
        self.comm: Dict[int, str] = {}
        self.tgid: Dict[int, int] = {}
        self.kthreads: Set[int] = set()
        self.free = LAST_NUMBER

    def number(self, pid: int, cpu: int) -> int:
        """The number of the task that has this pid now; pid 0 is the idle task of the CPU."""
        if pid == 0:
            if cpu >= IDLE_TASKS:
                raise Refused(f'CPU {cpu}: a trace has room for {IDLE_TASKS} idle tasks')
            return TOP - cpu
        return self.present[pid] if pid in self.present else self.newborn(pid)

    def newborn(self, pid: int) -> int:
        """A number for a task that has this pid from now on."""
        number = pid
        if number in self.pid_of or number > LAST_NUMBER:
            while self.free in self.pid_of:
                self.free -= 1
            number = self.free
        if number < 1:
            raise Refused(f'more than {LAST_NUMBER} tasks')
        self.pid_of[number] = pid
        self.present[pid] = number
        return number

    def take_snapshot(self, rows: Dict[int, Dict[str, Any]]) -> None:
        """Takes what /proc said of the tasks of the start, after what the records said of them."""
        first: Dict[int, int] = {}
        for number, pid in self.pid_of.items():
            first.setdefault(pid, number)
        for pid, row in rows.items():
            task = first[pid] if pid in first else self.newborn(pid)
            if row['kt']:
                self.kthreads.add(task)
            self.tgid.setdefault(task, row['g'])
            self.comm.setdefault(task, row['comm'])

    def there_at_the_start(self, born: Container[int]) -> Dict[int, int]:
        """pid to number, of tasks that no record tells the birth of."""
        found: Dict[int, int] = {}
        for number, pid in self.pid_of.items():
            if number not in born:
                found.setdefault(pid, number)
        return found

    def kind(self, task: int) -> str:
        """user, kthread or idle."""
        return 'idle' if task > LAST_NUMBER else 'kthread' if task in self.kthreads else 'user'
