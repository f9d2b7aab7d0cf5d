# Parts of init by programs that somebody else wrote: Linux' selftests of memory and of vmalloc, stress-ng, and a
# compilation of Linux. Each says by its status how it ended.
mount -t devtmpfs dev /dev
mkdir -p /etc /dev/shm /dev/hugepages /selftests/huge
mount -t tmpfs -o size=40% shm /dev/shm
mount -t debugfs debug /sys/kernel/debug
# of a name that is a file, such as huge, it would make a loop device
mount -t hugetlbfs none /dev/hugepages
mount -t hugetlbfs none /selftests/huge
echo nobody:x:65534:65534::/: >/etc/passwd
left_out=0
# where Linux was compiled, which the file system on /tmp may hide
linux=$(cat /linux)
[ -d "$linux" ] || { mkdir -p /under "$linux" && mount -o bind / /under && mount -o bind "/under$linux" "$linux"; }

# selftest COMMAND..: status 4 says that it left itself out
selftest() {
    local status
    (cd /selftests && PATH=$PATH:/selftests timeout 1200 "$@") >/tmp/said 2>&1
    status=$?
    rm -f /dev/hugepages/* /selftests/huge/*
    if [ $status = 4 ]; then
        left_out=$((left_out + 1))
        echo "selftest $*: left out, $(tail -n 1 /tmp/said)"
    else
        [ $status = 0 ] || tail -n 20 /tmp/said
        part "selftest $*" [ $status = 0 ]
    fi
}

selftests() {
    echo 300 >/proc/sys/vm/nr_hugepages
    while read -r test; do
        case $test in '' | '#'*) ;; *) selftest $test </dev/null ;; esac
    done </selftests/list
    echo 0 >/proc/sys/vm/nr_hugepages
    echo "selftests that left themselves out: $left_out"
}

# A module that never stays: the log has its answers. By itself it goes round a million times, too long for an
# emulator. Left out is the test that asks for alignments up to 2^63, and fails.
vmalloc() {
    insmod /test_vmalloc.ko test_loop_count=20000 run_test_mask=$((1023 - 64))
    dmesg | grep 'Summary:' && ! dmesg | grep 'Summary:' | grep -v 'failed: 0'
}

# Those of class vm, two of each at a time, one kind after another. A file on this /tmp is no swap.
stress() {
    timeout 5400 stress-ng --class vm --exclude swap --sequential 2 --timeout 3s --verify --temp-path /tmp --no-rand-seed
}

# Linux for a program, compiled anew from its sources, is what it was outside, byte for byte.
compile() {
    local PATH=/usr/bin:/bin
    make -s -j "$(nproc)" $(cat /make) && sha256sum -c /sum
}

foreign_part() {
    case $1 in
        selftests) selftests ;;
        vmalloc) part 'blocks of vmalloc' vmalloc ;;
        stress)
            part 'stress-ng, class vm' stress
            grep -E 'hogs:|passed:|skipped:|failed:|completed' /tmp/said
            ;;
        compile) part 'Linux is compiled, to the same bytes' compile ;;
        *) return 1 ;;
    esac
}
