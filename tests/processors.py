"""That the library runs on every x86-64 processor, as embed/kuyeshan.h says: read from its machine code.

    python3 tests/processors.py --check    reads the archives of the library, which embed/run builds, and of the two benches

An archive is linked into programs of others, and nothing asks there which processor it is. So no instruction may stand in
it that the first x86-64 processors lack: those of SSE3, SSSE3, SSE4, POPCNT and all that came later. The mnemonics are
tried first on code that has such instructions, and on code that has none.
"""
import re
import subprocess
import sys
import tempfile
from pathlib import Path

import commands

ROOT = Path(__file__).parent.parent
# embed/run builds it.
SHIPPED = ROOT / 'crates' / 'kuyeshan' / 'out' / 'libkuyeshan.a'

LATER = re.compile(r'''
    v(?!er[rw]$)[a-z]\w* | k(and|x?n?or|xor|not|mov|test|shift|unpck|add)\w* | gf2p8\w*     # AVX and after
  | addsub\w+ | h(add|sub)p[sd] | lddqu | mov(ddup|shdup|sldup) | fisttp\w* | monitor\w* | mwait\w*   # SSE3
  | pshufb | palignr | pabs[bwd] | ph(add|sub)\w+ | pmaddubsw | pmulhrsw | psign[bwd]                 # SSSE3
  | pinsr[bdq] | pextr[bdq] | ptest | p(min|max)(sb|uw|sd|ud) | pmulld | pmuldq | pmov[sz]x\w+ | pcmp(eqq|gtq|[ei]str\w+)
  | packusdw | p?blend\w* | round[ps][sd] | dpp[sd] | mpsadbw | phminposuw | insertps | extractps | movntdqa     # SSE4
  | extrq | insertq | movnts[sd] | [ls]ahf | pextrw_to_memory                                           # SSE4a, and what the very first lack
  | crc32\w* | popcnt\w* | lzcnt\w* | tzcnt\w* | movbe\w* | cmpxchg16b | aes\w+ | pclmul\w+ | sha(1|256)\w+ | rdrand\w* | rdseed\w*
  | andn\w* | bextr\w* | bls(i|r|msk)\w* | bzhi\w* | mulx\w* | p(dep|ext)[lq]? | rorx\w* | s(ar|hl|hr)x\w* | ad[co]x\w*  # BMI, ADX
''', re.X)

KNOWN_LATER = ['pshufb %xmm1, %xmm0', 'pinsrb $1, %eax, %xmm0', 'pinsrd $1, %eax, %xmm0', 'ptest %xmm0, %xmm0', 'pmaxud %xmm1, %xmm0',
               'popcnt %rax, %rax', 'haddps %xmm1, %xmm0', 'vpaddd %ymm1, %ymm0, %ymm0', 'mulx %rax, %rbx, %rcx', 'crc32b %al, %ebx',
               'pblendw $1, %xmm1, %xmm0', 'tzcnt %rax, %rbx', 'shlx %rax, %rbx, %rcx', 'adcx %rax, %rbx', 'pmovzxbw %xmm1, %xmm0', 'pextrw $1, %xmm0, (%rdi)', 'sahf', '{vex} vpdpbusd %xmm1, %xmm0, %xmm0']
KNOWN_FIRST = ['pshufd $1, %xmm1, %xmm0', 'pshuflw $1, %xmm1, %xmm0', 'pinsrw $1, %eax, %xmm0', 'pextrw $1, %xmm0, %eax', 'verr %ax', 'pmaxub %xmm1, %xmm0', 'pmaxsw %xmm1, %xmm0',
               'movdqu (%rdi), %xmm0', 'pcmpeqb %xmm1, %xmm0', 'packuswb %xmm1, %xmm0', 'pmuludq %xmm1, %xmm0', 'div %rcx',
               'adc %rax, %rbx', 'bsf %rax, %rbx', 'cmpxchg %rax, (%rdi)', 'sar $1, %rax', 'shl $1, %rax', 'andnps %xmm1, %xmm0', 'movd %eax, %xmm0']


def later(path):
    """The instructions of an archive or object that the first processors lack, and how many there are in all."""
    ran = subprocess.run(['objdump', '-d', '--no-show-raw-insn', path], stdout=subprocess.PIPE, text=True, check=True)
    code = re.sub(r'pextrw( .*\))', r'pextrw_to_memory\1', ran.stdout)
    words = re.findall(r'^ +[0-9a-f]+:\t(?:(?:lock|rep[a-z]*|data16|cs|ds|bnd|notrack|rex\S*|\{\w+\}) )*(\S+)', code, re.M)
    return sorted({word for word in words if LATER.fullmatch(word)} - {'andnps', 'andnpd'}), len(words)


def try_known():
    with tempfile.TemporaryDirectory() as folder:
        for code, known in [(code, True) for code in KNOWN_LATER] + [(code, False) for code in KNOWN_FIRST]:
            made = Path(folder) / 'known.o'
            subprocess.run(['gcc', '-c', '-x', 'assembler', '-o', made, '-'], input=code + '\n', text=True, check=True)
            if bool(later(made)[0]) != known:
                sys.exit(f'processors: {code} is {"not " if known else ""}found')


def check():
    try_known()
    read = 0
    for path in [SHIPPED, commands.built('bench_rounding'), commands.built('bench_annuity_c')]:
        found, instructions = later(path)
        if found or not instructions:
            sys.exit(f'processors: {path} has {found or "no instructions"}')
        read += instructions
    print(f'processors: {read} instructions, all of them of every x86-64 processor')


if sys.argv[1:] != ['--check']:
    sys.exit(__doc__)
check()
