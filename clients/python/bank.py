#!/usr/bin/env python3
"""A bank: callers on threads move money from account to account under locks, and one adds up all accounts.

usage: bank.py CALLERS NODES TRANSFERS SCRIPT JOURNAL: it writes the script of what was asked, and the journal, into
these files."""
import sys
import threading
import time

from lockrun import Nodes, StillWaits

ACCOUNTS, FIRST, AMOUNT = 4, 1000, 5
# How many transfers all callers make together before it is asked what they were served; and the commands of a transfer.
BETWEEN, COMMANDS = 100, 6
# Plain numbers: nothing but the locks keeps callers apart.
MONEY = [FIRST] * ACCOUNTS


def script(callers, nodes):
    """The nodes, sets and clients."""
    lines = [f'nodes {nodes}', 'set bank']
    lines += [f'set account{k} with bank' for k in range(ACCOUNTS)]
    lines += [f'client caller{k} at {k % nodes}' for k in range(callers)]
    return '\n'.join(lines) + '\n'


def transfer(session, from_account, to_account):
    """Locks the accounts in order, so that no callers wait for each other in a ring."""
    lesser, greater = sorted((from_account, to_account))
    with session.lock('bank', 'intention_write'), session.lock(f'account{lesser}', 'write'), \
            session.lock(f'account{greater}', 'write'):
        in_from, in_to = MONEY[from_account], MONEY[to_account]
        time.sleep(0)
        MONEY[from_account] = in_from - AMOUNT
        MONEY[to_account] = in_to + AMOUNT


def call(session, transfers, faults):
    """These transfers of a caller."""
    try:
        for k in transfers:
            from_account = (session.client + k) % ACCOUNTS
            transfer(session, from_account, (from_account + 1 + k % (ACCOUNTS - 1)) % ACCOUNTS)
    except Exception as fault:
        faults.append(fault)


def make_round(nodes, transfers):
    """All callers make these transfers, each on a thread."""
    faults = []
    threads = [threading.Thread(target=call, args=(session, transfers, faults)) for session in nodes.sessions]
    for thread in threads:
        thread.start()
    for thread in threads:
        thread.join()
    if faults:
        sys.exit(f'bank.py: {faults[0]}')


def compare(nodes, commands):
    """Each command was answered, and the reply was polled."""
    submitted, polled = nodes.served()
    if submitted != commands or polled != commands:
        sys.exit(f'bank.py: {submitted} commands, {polled} replies, and callers were told {commands}')


def audit(session):
    """No intention to write goes with a read of the whole bank. It is asked for with little patience, and waited
    for."""
    try:
        bank = session.ask('bank', 'read', 0)
    except StillWaits:
        bank = session.wait(60)
    with bank:
        for k, amount in enumerate(MONEY):
            print(f'account{k}: {amount}')
        return sum(MONEY)


def main():
    """The status is 0 if the sum is right and nothing is held at the end."""
    if len(sys.argv) != 6:
        sys.exit('usage: bank.py CALLERS NODES TRANSFERS SCRIPT JOURNAL')
    callers, count, transfers = map(int, sys.argv[1:4])
    nodes = Nodes(script(callers, count), keep=True)
    compare(nodes, 0)
    each = -(-BETWEEN // callers)
    for first in range(0, transfers, each):
        last = min(transfers, first + each)
        make_round(nodes, range(first, last))
        compare(nodes, last * callers * COMMANDS)
    total = audit(nodes.session('caller0'))
    compare(nodes, transfers * callers * COMMANDS + 2)
    journal = nodes.finish()
    for name, text in ((sys.argv[4], journal.script), (sys.argv[5], journal.text)):
        with open(name, 'w', encoding='ascii') as file:
            file.write(text)
    print(f'all together: {total}')
    return total != ACCOUNTS * FIRST or journal.held > 0 or journal.waiting > 0


if __name__ == '__main__':
    sys.exit(main())
