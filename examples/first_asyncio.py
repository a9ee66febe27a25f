import asyncio
from lockrun import Nodes, Withdrawn


async def main() -> None:
    nodes = Nodes('nodes 1\nset counter\nclient ann at 0\nclient ben at 0\n')
    ann, ben = nodes.sessions
    async with ann.lock_async('counter', 'write'):
        try:
            await ben.lock_async('counter', 'write', timeout=0.1)
        except Withdrawn:
            print('ben gave up after 100 ms')
    async with ben.lock_async('counter', 'write', timeout=0.1):
        print('ben has the lock')

asyncio.run(main())
