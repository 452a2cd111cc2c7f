"""The proofs of several crates beside each other, each behind those on which it stands, as far as processors and memory go."""
import os
from concurrent.futures import FIRST_COMPLETED, ThreadPoolExecutor, wait

from proving import costs


class Lanes:
    """`tasks` are proved; `tell` gets each with what came of it. What stands on one that failed is left out."""

    def __init__(self, tasks, jobs, tell):
        self.left, self.tell, self.table = list(tasks), tell, costs.costs()
        self.jobs = jobs or len(os.sched_getaffinity(0))
        self.sums, self.running, self.failed, self.out, self.proved, self.same = {}, {}, [], [], [], []
        behind = {it.crate.name: sum(it.crate in at.crate.below() for at in self.left) for it in self.left}
        self.left.sort(key=lambda it: (it.tests, -behind[it.crate.name]))

    def need(self, task):
        return costs.cost(task.name, self.table).gigabytes

    def start(self, pool):
        """Starts what can be. A further job of a proof takes six tenths of the memory of the first one."""
        ready = [it for it in self.left if all(dep.name in self.sums for dep in it.crate.below())]
        for at, it in enumerate(ready):
            idle, need = self.jobs - sum(jobs for _, jobs in self.running.values()), self.need(it)
            taken = sum(self.need(task) * (0.4 + 0.6 * jobs) for task, jobs in self.running.values())
            room = costs.available() - taken / 2  # (half of it is taken by then)
            if idle <= 0 or (need > room and self.running):
                continue
            jobs = max(1, min(4, idle // (len(ready) - at), int(1 + (room / need - 1) / 0.6)))
            self.left.remove(it)
            self.running[pool.submit(it.make, jobs, self.sums)] = it, jobs

    def gather(self, ended):
        """Takes in a proof that has ended."""
        task, made = self.running.pop(ended)[0], ended.result()
        self.tell(task, made)
        if made.sums is None:
            self.failed.append(task.name)
            return
        (self.same if made.same else self.proved).append(task.name)
        if task.is_library:
            self.sums[task.crate.name] = made.sums

    def leave_out(self):
        """Takes away what stands on one that failed."""
        for it in list(self.left):
            if any(dep.name in self.failed for dep in it.crate.below()):
                self.left.remove(it)
                self.failed.append(it.name)
                self.out.append(it.name)

    def run(self):
        """Whether all are proved."""
        with ThreadPoolExecutor(self.jobs) as pool:
            while self.left or self.running:
                self.start(pool)
                for it in wait(self.running, return_when=FIRST_COMPLETED).done:
                    self.gather(it)
                self.leave_out()
        if self.out:
            print(f"left out, for what failed below: {' '.join(self.out)}", flush=True)
        return not self.failed
