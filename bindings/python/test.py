#!/usr/bin/env python3
"""Tries the binding for Python on the shared library that LLFREE_SO names: LLFREE_SO=FILE bindings/python/test.py"""
import pathlib
import re
import sys
import textwrap
import threading
import unittest

sys.dont_write_bytecode = True

import llfree  # noqa: E402

HEADER = pathlib.Path(__file__).resolve().parents[2] / 'include' / 'llfree.h'
MIB = 256


class Calls(unittest.TestCase):

    def refused(self, status, call, *arguments, **words):
        with self.assertRaises(llfree.Refused) as met:
            call(*arguments, **words)
        self.assertEqual(met.exception.status, status)

    def test_names_are_those_of_the_header(self):
        text = HEADER.read_text(encoding='utf-8')
        told = {name: int(number) for name, number in re.findall(r'^    LLFREE_(\w+) = (\d+)', text, re.MULTILINE)}
        self.assertEqual(told, {it.name: it.value for it in llfree.Status})
        self.assertIn(f'#define LLFREE_FRAME_BYTES {llfree.FRAME_BYTES}\n', text)

    def test_first_page(self):
        names = {}
        exec(textwrap.dedent(''.join(re.findall(r'^    .*\n', llfree.__doc__, re.MULTILINE))), names)
        self.assertEqual((names['first'].frames(), names['second'].free_frames()), (32768, 32768))

    def test_any_core_gives_what_any_core_took(self):
        first, second = llfree.open(64 * MIB, cores=2)
        frame = first.take(3)
        self.assertEqual((frame % 8, first.free_frames()), (0, 64 * MIB - 8))
        first.split(frame, 3)
        second.give(frame + 4, 2)
        self.refused(llfree.Status.NOT_HELD, second.give, frame, 3)
        second.give(frame, 2)
        self.assertEqual((second.frames(), second.free_frames(), second.free_huge()), (64 * MIB, 64 * MIB, 32))

    def test_a_block_is_split_into_all_its_parts(self):
        first, second = llfree.open(64 * MIB, cores=2)
        huge = first.take(9)
        for order, to in ((9, 10), (10, 3), (3, 4), (9, 256), (9, -1)):
            self.refused(llfree.Status.BAD_ORDER, first.split_to, huge, order, to)
        self.refused(llfree.Status.NOT_HELD, first.split_to, huge, 8, 3)
        self.assertEqual(second.order_at(huge), 9)
        for frame in (huge + 8, -1, 1 << 31, 1 << 32):
            self.refused(llfree.Status.NOT_HELD, first.order_at, frame)
        second.split_to(huge, 9, 3)
        self.assertEqual((first.order_at(huge), second.order_at(huge + 504)), (3, 3))
        self.refused(llfree.Status.NOT_HELD, first.split_to, huge, 9, 3)
        for frame in range(huge, huge + 512, 8):
            second.give(frame, 3)
        self.assertEqual(first.free_huge(), 32)

    def test_a_block_at_a_place(self):
        first, second = llfree.open(1124, cores=2, kept=[(3, 2)])
        status = llfree.Status
        held = {3, 4, *range(520, 528)}
        second.take_at(520, 3)
        for order in range(10):
            for frame in range(0, 1200):
                block = range(frame, frame + (1 << order))
                if frame % len(block) == 0 and block.stop <= 1124 and held.isdisjoint(block):
                    first.take_at(frame, order)
                    self.assertEqual(second.order_at(frame), order)
                    self.refused(status.NO_BLOCK, second.take_at, frame, order)
                    second.give(frame, order)
                else:
                    self.refused(status.NO_BLOCK, first.take_at, frame, order)
        for frame in (-1, 1 << 31, 1 << 32):
            self.refused(status.NO_BLOCK, first.take_at, frame, 0, tries=3)
        for order in (-1, 10, 255, 256, 1 << 40):
            self.refused(status.BAD_ORDER, first.take_at, 0, order)
        first.give(520, 3)
        self.assertEqual((first.free_frames(), first.free_huge()), (1122, 1))
        second.close()
        self.refused(status.CLOSED_HANDLE, second.take_at, 0, 0)

    def test_runs_of_huge_frames(self):
        first, second = llfree.open(20 * 512 + 7, cores=2, kept=[(512, 1)])
        status = llfree.Status
        for count, place in ((1, 0), (2, 2), (3, 4), (4, 4), (5, 8), (8, 8)):
            self.assertEqual(first.take_run(count), 512 * place)
            self.assertEqual([second.order_at(512 * (place + i)) for i in range(count)], [9] * count)
            self.assertFalse(second.is_free(512 * place, 0) or second.is_free(512 * place, 9))
            self.refused(status.NOT_HELD, second.give_run, 512 * place, count + 1)
            second.give_run(512 * place, count)
            self.refused(status.NOT_HELD, second.give_run, 512 * place, count)
            self.assertTrue(second.is_free(512 * place, 9))
        for count in (9, 16, 17, 512):
            self.refused(status.NO_BLOCK, first.take_run, count)
        for count in (-1, 0, 513, 1 << 32):
            self.refused(status.BAD_ORDER, first.take_run, count)
            self.refused(status.BAD_ORDER, first.give_run, 0, count)
        for frame, order in ((-1, 0), (1 << 32, 0), (0, -1), (0, 256), (0, 10), (512, 0), (20 * 512 + 7, 0), (1, 1)):
            self.assertFalse(first.is_free(frame, order))
        self.refused(status.NOT_HELD, first.give_run, -1, 1)
        self.assertEqual((first.free_frames(), first.free_huge()), (20 * 512 + 6, 19))

    def test_numbers_that_c_has_no_room_for(self):
        core, = llfree.open(1024)
        status = llfree.Status
        frame = core.take(0)
        for order in (-1, 10, 256, 1 << 40):
            self.refused(status.BAD_ORDER, core.take, order)
        for wrong in ((frame + (1 << 32), 0), (frame, 256), (-1, 0)):
            self.refused(status.NOT_HELD, core.give, *wrong)
        for frames in (-1, 0, (1 << 32) + 1024):
            self.refused(status.BAD_GEOMETRY, llfree.open, frames)
        for cores in (0, 1025, 1 << 20):
            self.refused(status.BAD_GEOMETRY, llfree.open, 1024, cores)
        self.assertEqual(len(llfree.open(1024, 1024)), 1024)
        for kept in ([(1 << 32, 1)], [(0, -1)], [(1024, 1)], [(8, 1), (0, 1)]):
            self.refused(status.BAD_RANGE, llfree.open, 1024, kept=kept)
        core.give(frame, 0)
        self.assertEqual(core.free_frames(), 1024)

    def test_single_frames_rest(self):
        first, second = llfree.open(4096, cores=2)
        status = llfree.Status
        taken = [first.take_frame() for _ in range(129)]
        self.assertEqual(first.free_frames(), 4096 - 129 - first.resting())
        first.drain()
        self.assertEqual((len(set(taken)), first.free_frames(), first.resting()), (129, 4096 - 129, 0))
        self.refused(status.NOT_HELD, first.give, taken[0], 0)
        for frame in taken[:128]:
            first.give_frame(frame)
        self.assertEqual((first.resting(), second.free_frames()), (128, 4096 - 129))
        for wrong in (taken[0], taken[128] + (1 << 32), -1, None):
            self.refused(status.NOT_HELD, second.give_frame, wrong)
        first.give_frame(taken[128])
        self.assertEqual((first.resting(), second.free_frames()), (121, 4096 - 121))
        again = [first.take_frame() for _ in range(121)]
        self.assertEqual(again, taken[:7:-1])
        for frame in again:
            second.give_frame(frame)
        self.assertEqual((first.resting(), second.resting(), first.free_frames()), (0, 121, 4096 - 121))
        second.drain()
        self.assertEqual((second.resting(), first.free_huge()), (0, 8))
        frame = first.take_frame()
        first.close()
        self.refused(status.CLOSED_HANDLE, first.give_frame, frame)
        second.give_frame(frame)
        self.assertEqual(second.close_image()[::9], [512] * 8)

    def test_single_frames_rest_by_number(self):
        first, second = llfree.open(4096, cores=2)
        status = llfree.Status
        taken = [first.take_number() for _ in range(3)]
        first.drain()
        self.assertEqual((len(set(taken)), second.order_at(taken[0])), (3, 0))
        for frame in taken:
            first.give_number(frame)
            for core, give in ((first, first.give_number), (second, second.give_number)):
                self.refused(status.NOT_HELD, give, frame)
                self.refused(status.NOT_HELD, core.give, frame, 0)
        for wrong in (4096, -1, taken[0] + (1 << 32)):
            self.refused(status.NOT_HELD, first.give_number, wrong)
        self.assertEqual((first.resting(), [first.take_number() for _ in range(3)]), (3, taken[::-1]))
        second.give(taken[0], 0)
        second.give_number(taken[1])
        eight = first.take(3)
        self.refused(status.NOT_HELD, first.give_number, eight)
        first.split_to(eight, 3, 0)
        for frame in range(eight, eight + 8):
            second.give_number(frame)
        self.assertEqual(second.resting(), 9)
        second.close()
        first.give_number(taken[2])
        self.refused(status.CLOSED_HANDLE, second.take_number)
        self.assertEqual(first.close_image()[::9], [512] * 8)

    def test_single_frames_come_at_once(self):
        first, second = llfree.open(512, cores=2)
        status = llfree.Status
        self.assertEqual(first.take_frames(0), [])
        taken = first.take_frames(200) + first.take_frames(400)
        self.assertEqual((len(taken), sorted(taken)), (512, list(range(512))))
        self.refused(status.NO_BLOCK, second.take_frames, 1)
        for wrong in (taken[:2] + [512], taken[:2] + taken[1:2]):
            self.refused(status.NOT_HELD, second.give_frames, wrong)
        second.give_frames(taken[:100])
        self.assertEqual((second.resting(), second.take_frames(3)), (100, taken[99:96:-1]))
        second.give_frames(taken[99:96:-1] + taken[100:])
        self.refused(status.NOT_HELD, first.give_frame, taken[0])
        self.assertEqual(second.resting(), 128)  # 97 and 415: once full, each 16 more make it full again
        second.drain()
        self.assertEqual(first.free_huge(), 1)

    def test_ranges_zones_and_what_is_left(self):
        def free(*zones):
            return [(core.free_frames_of(zone), core.free_huge_of(zone)) for zone in zones]
        core, = llfree.open(1024, kept=[(0, 1000)])
        taken = sorted(core.take(0, tries=20) for _ in range(24))
        self.assertEqual(taken, list(range(1000, 1024)))
        self.refused(llfree.Status.NO_BLOCK, core.take, 0, tries=3)
        core, = llfree.open_zones([(0, 512), (4096, 512)])
        self.assertEqual({core.take(9), core.take(9)}, {0, 4096})
        self.assertEqual(free(0, 1, 1 << 32), [(0, 0)] * 3)
        self.refused(llfree.Status.BAD_GEOMETRY, llfree.open_zones, [(1, 512)])
        core.give(4096, 9)
        self.assertEqual(free(0, 1, 2, -1), [(0, 0), (512, 1), (0, 0), (0, 0)])
        for zone in (2, -1, 1 << 32):
            self.refused(llfree.Status.BAD_RANGE, core.set_home, zone)
        self.assertEqual((core.zones(), core.home()), (2, 0))
        core.give(0, 9)
        for zone in (1, 0):
            core.set_home(zone)
            frame = core.take(9)
            self.assertEqual((core.home(), frame), (zone, 4096 * zone))
            core.give(frame, 9)
        self.assertEqual(core.take(9), 0)
        numbers = core.close_image(zones=[(0, 512), (4096, 512)])
        self.assertEqual((len(numbers), numbers[0] & 32768, numbers[9:]), (18, 32768, [512] + [0] * 8))

    def test_images(self):
        first, second = llfree.open(1024, cores=2)
        frame = first.take(4)
        self.refused(llfree.Status.CORES_OPEN, first.close_image)
        second.close()
        numbers = first.close_image()
        self.refused(llfree.Status.CLOSED_HANDLE, first.take, 0)
        self.assertEqual(sum(bin(it).count('1') for at, it in enumerate(numbers) if at % 9), 16)
        self.refused(llfree.Status.NOT_HELD, llfree.reopen, 1024, numbers, claims=[(frame + 16, 4)])
        self.refused(llfree.Status.BAD_IMAGE, llfree.reopen, 1024, numbers[1:])
        again, = llfree.reopen(1024, numbers, claims=[(frame, 4)])
        self.assertEqual(again.free_frames(), 1008)
        again.give(frame, 4)
        self.assertEqual(again.free_huge(), 2)

    def test_threads_share_cores(self):
        frames, threads = 64 * MIB, 8
        cores = llfree.open(frames, cores=2)
        held, wrong = [[] for _ in range(threads)], []

        def work(me):
            try:
                for turn in range(400):
                    order = (me + turn) % 4
                    held[me].append((cores[turn % 2].take(order, tries=20), order))
                    cores[me % 2].give_frame(cores[turn % 2].take_frame(tries=20))
                    if turn % 3 == 0:
                        cores[me % 2].give(*held[me].pop(0))
            except llfree.Refused as refused:
                wrong.append(refused)

        running = [threading.Thread(target=work, args=(me,)) for me in range(threads)]
        for thread in running:
            thread.start()
        for thread in running:
            thread.join()
        out = [frame + at for row in held for frame, order in row for at in range(1 << order)]
        self.assertGreater(sum(core.resting() for core in cores), 0)
        for core in cores:
            core.drain()
        self.assertEqual((wrong, len(set(out)), cores[0].free_frames()), ([], len(out), frames - len(out)))
        for row in held:
            for frame, order in row:
                cores[0].give(frame, order)
        self.assertEqual(cores[1].free_huge(), frames // 512)


if __name__ == '__main__':
    unittest.main()
