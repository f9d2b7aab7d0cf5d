"""A load for malloc under Python: threads that make texts, read them again, and start programs."""
import json
import subprocess
import sys
import threading

COUNT = 'print(sum(len(str(i) * 100) for i in range(10000)))'
wrong = []


def work(me):
    rows = [{'me': me, 'text': 'x' * (i % 700), 'row': list(range(i % 50))} for i in range(2000)]
    for _ in range(2):
        if json.loads(json.dumps(rows)) != rows:
            wrong.append(me)
        if subprocess.run([sys.executable, '-c', COUNT], capture_output=True, check=True).stdout != b'3889000\n':
            wrong.append(me)


threads = [threading.Thread(target=work, args=(me,)) for me in range(8)]
for thread in threads:
    thread.start()
for thread in threads:
    thread.join()
print('all is well' if not wrong else wrong)
