"""That nothing stays in the kernel, however a recording ends."""
import os
import signal
import subprocess
import sys
import time
import unittest
from typing import List
from unittest import mock

from fake_kernel import TRACEFS
from on_a_machine import OnAMachine
from support import HERE

from lpt_live import recording
from lpt_live.errors import NotPossible, Refused
from lpt_live.record import record, tracefs
from lpt_live.record.recorder import Wanted

RECORDER = '''
import sys
from fake_kernel import FakeKernel
from lpt_live.record import record
from lpt_live.record.recorder import Wanted
record(FakeKernel(sys.argv[1]), Wanted(sys.argv[2], [], [], until='stop'))
'''


class NothingStaysTest(OnAMachine):
    """All that was set is taken away."""

    def refusing(self, ending: str) -> None:
        """The kernel refuses writes to this file of the instance."""
        put = self.kernel.put

        def refuse(name: str, text: str) -> None:
            if name.endswith(ending) and text != '0':
                raise OSError(22, 'Invalid argument')
            put(name, text)
        self.kernel.put = refuse     # type: ignore[assignment]

    def test_after_a_refusal_at_each_step(self) -> None:
        for ending in ('/trace_clock', '/buffer_size_kb', '/sched_process_fork/enable', '/walk/enable', '/tracing_on'):
            with self.subTest(ending):
                self.refusing(ending)
                with self.assertRaisesRegex(NotPossible, 'Invalid argument'):
                    self.record(seconds=0.1)
                self.assertTrue(self.kernel.is_clean())
                self.assertFalse(os.path.exists(self.output))

    def test_after_a_full_disk(self) -> None:
        with open('/dev/full', 'wb', buffering=0) as full, mock.patch('tempfile.TemporaryFile', return_value=full):
            self.stuck()
            with self.assertRaisesRegex(NotPossible, 'No space left'):
                self.record(seconds=0.1)
        self.assertTrue(self.kernel.is_clean())
        self.assertFalse(os.path.exists(self.output))

    def test_a_bad_module_changes_nothing(self) -> None:
        with self.assertRaises(Refused):
            self.record(modules=['/no/such.ko'])
        self.assertEqual(self.kernel.log, [])

    def test_an_unknown_function_changes_nothing(self) -> None:
        for word in ('nosuch', 'box', ''):
            with self.assertRaisesRegex(Refused, 'MODULE:NAME'):
                self.record(functions=[word])
        self.assertEqual(self.kernel.log, [])

    def test_a_folder_that_is_not_there_changes_nothing(self) -> None:
        with self.assertRaises(Refused):
            record(self.kernel, Wanted('/no/such/folder/out.rec', [], []))
        self.assertEqual(self.kernel.log, [])

    def test_a_kernel_that_lacks_something_is_left_alone(self) -> None:
        os.remove(self.kernel.path('/sys/kernel/btf/vmlinux'))
        with self.assertRaisesRegex(NotPossible, 'CONFIG_DEBUG_INFO_BTF'):
            self.record()
        self.assertEqual(self.kernel.log, [])

    def test_another_recorder_is_left_alone(self) -> None:
        self.kernel.make_folder(TRACEFS + '/instances/lpt_live')
        held = tracefs.lock(self.kernel, TRACEFS)
        assert held is not None
        with self.assertRaisesRegex(NotPossible, 'another recorder'):
            self.record()
        os.close(held)
        self.assertFalse(self.kernel.is_clean())


class KilledTest(OnAMachine):
    """Ends from outside."""

    def start(self) -> 'subprocess.Popen[str]':
        """A recorder in a process of its own, once it records."""
        path = os.pathsep.join([HERE, os.path.dirname(HERE)])
        process = subprocess.Popen([sys.executable, '-c', RECORDER, self.kernel.root, self.output], text=True,
                                   stderr=subprocess.PIPE, env={**os.environ, 'PYTHONPATH': path})
        assert process.stderr is not None
        self.addCleanup(process.stderr.close)
        self.assertIn('recording', process.stderr.readline())
        self.assertFalse(self.kernel.is_clean())
        return process

    def test_signals_end_it_and_the_recording_is_whole(self) -> None:
        for each in (signal.SIGINT, signal.SIGTERM, signal.SIGHUP):
            with self.subTest(each):
                before = signal.signal(each, signal.SIG_DFL)            # under nohup the child would inherit that it is ignored
                process = self.start()
                signal.signal(each, before)
                process.send_signal(each)
                self.assertEqual(process.wait(120), 0)
                self.assertTrue(self.kernel.is_clean())
                recording.read(self.output)
                os.remove(self.output)

    def test_nohup_goes_on(self) -> None:
        before = signal.signal(signal.SIGHUP, signal.SIG_IGN)       # the child inherits it
        process = self.start()
        signal.signal(signal.SIGHUP, before)
        process.send_signal(signal.SIGHUP)
        time.sleep(0.5)
        self.assertIsNone(process.poll())
        process.terminate()
        self.assertEqual(process.wait(120), 0)
        self.assertTrue(self.kernel.is_clean())

    def test_after_a_kill_the_next_one_cleans_up(self) -> None:
        process = self.start()
        process.kill()
        process.wait(120)
        self.assertFalse(self.kernel.is_clean())
        self.assertEqual(self.files(), ['machine'])
        record(self.kernel, self.wanted(seconds=0.1))
        self.assertTrue(self.kernel.is_clean())
        recording.read(self.output)

    def files(self) -> List[str]:
        """What lies where the recording was to be."""
        return sorted(os.listdir(os.path.dirname(self.output)))

if __name__ == '__main__':
    unittest.main()
