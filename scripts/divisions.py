# For gdb, run by scripts/divisions.sh on the program of tests/c/divisions.c: stops at every division of the library and notes what it divides by.
# Fails where that is q or 2q at a power of two, or a number that has no name. LIBRARY names a file with the names of the library's functions.
import collections
import os
import re
import subprocess

import gdb

BITS = {'b': 8, 'w': 16, 'l': 32, 'q': 64}
TYPES = {8: 'char', 16: 'short', 32: 'int', 64: 'long'}


def bits_of(register):
    """The width of a register, by its name: rax, r8 64, eax, r8d 32, ax, r8w 16, else 8."""
    numbered = re.fullmatch(r'r\d+([dwbl]?)', register)
    if numbered:
        return {'': 64, 'd': 32, 'w': 16}.get(numbered[1], 8)
    if re.fullmatch(r'[re]..', register):
        return 64 if register[0] == 'r' else 32
    return 16 if re.fullmatch('[abcd]x|[sd]i|[sb]p', register) else 8


def divisor_of(mnemonic, operand):
    """The divisor as gdb reads it, and its width."""
    if operand.startswith('%'):
        # gdb has no r11b: the register whole, of which the mask leaves its low bits
        return '$' + re.sub(r'^(r\d+)[dwbl]$', r'\1', operand[1:]), bits_of(operand[1:])
    place = re.fullmatch(r'(-?0x[0-9a-f]+)?\(%(\w+)\)', operand)
    suffix = mnemonic[-1]
    if not place or suffix not in BITS:
        raise gdb.GdbError('divisions: an operand of another form: %s %s' % (mnemonic, operand))
    return '*(unsigned %s *)((unsigned long)$%s + (%s))' % (TYPES[BITS[suffix]], place[2], place[1] or 0), BITS[suffix]


def divisions():
    """(function, address, divisor, width) of every division in a function of the library."""
    with open(os.environ['LIBRARY']) as names:
        library = set(names.read().split('\n'))
    program = gdb.current_progspace().filename
    text = subprocess.run(['objdump', '-d', '--no-show-raw-insn', program], check=True, capture_output=True, text=True).stdout
    function = ''
    for line in text.split('\n'):
        head = re.fullmatch(r'[0-9a-f]+ <(.*)>:', line)
        function = head[1] if head else function
        found = re.match(r'\s*([0-9a-f]+):\s+(i?div[bwlq]?)\s+(\S+)', line)
        if found and function in library:
            yield (function, int(found[1], 16), *divisor_of(found[2], found[3]))


def name_of(divisor):
    """The operand of the call at hand that the divisor is."""
    given = gdb.parse_and_eval('at_hand')
    q, n, m = int(given['q']), int(given['n']), int(given['m'])
    names = {'q': q, '2q': 2 * q, 't': int(given['t']), 'n': n, 'n + 1': n + 1, 'm': m, 'm + 1': m + 1, 'L': int(given['levels']),
             'base log': int(given['base_log']), 'B - 1': int(given['base']) - 1, 'the words lent': int(given['words'])}
    named = next((name for name, value in names.items() if value == divisor), None)
    # a call that counts words divides by each of 1 to L + 1
    return named or ('1 to L + 1' if 1 <= divisor <= int(given['counts']) else 'the unnamed %d' % divisor)


class Division(gdb.Breakpoint):
    """Stops at one division, counts it, and goes on."""
    seen = {0: collections.Counter(), 1: collections.Counter()}  # at other moduli, at powers of two: (function, divisor)

    def __init__(self, function, address, divisor, bits):
        super().__init__('*%#x' % address, internal=True)
        self.function, self.divisor, self.mask = function, divisor, (1 << bits) - 1

    def stop(self):
        name = name_of(int(gdb.parse_and_eval(self.divisor)) & self.mask)
        Division.seen[int(gdb.parse_and_eval('at_hand.power_of_two'))][self.function, name] += 1
        return False


def by_divisor(seen):
    total = collections.Counter()
    for (_, name), count in seen.items():
        total[name] += count
    return ', '.join('%d by %s' % (total[name], name) for name in sorted(total))


def dividing(seen, wanted):
    return sorted({function for function, name in seen if wanted(name)})


def main():
    """What is wrong, or nothing."""
    can = collections.Counter()
    for division in list(divisions()):
        can[division[0]] += 1
        Division(*division)
    print('Functions that have divisions, and how many:')
    for function, count in sorted(can.items()):
        print('%5d  %s' % (count, function))
    gdb.execute('run >/dev/null', to_string=True)
    status = gdb.parse_and_eval('$_exitcode')
    if status.type.code == gdb.TYPE_CODE_VOID or int(status) != 0:
        return 'the program did not end as it should'
    others, powers = Division.seen[0], Division.seen[1]
    print('Divided at powers of two: ' + by_divisor(powers))
    print('Divided at other moduli: ' + by_divisor(others))
    print('By q, at other moduli: ' + ', '.join(dividing(others, lambda name: name == 'q')))
    if not dividing(others, lambda name: name == 'q'):
        return 'no division by q was seen at other moduli either'
    wrong = dividing(powers, lambda name: name in ('q', '2q') or name.startswith('the unnamed'))
    return wrong and 'by q, 2q or what has no name, at a power of two: ' + ', '.join(wrong)


failed = main()
print('divisions: ' + ('FAILED, ' + failed if failed else 'OK, nothing divides by q or 2q where q is a power of two'))
gdb.execute('quit %d' % bool(failed))
