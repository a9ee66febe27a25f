from lockrun import Nodes, Withdrawn

nodes = Nodes('nodes 1\nset counter\nclient ann at 0\nclient ben at 0\n')
ann, ben = nodes.sessions
with ann.lock('counter', 'write'):
    try:
        ben.lock('counter', 'write', timeout=0.1)
    except Withdrawn:
        print('ben gave up after 100 ms')
with ben.lock('counter', 'write', timeout=0.1):
    print('ben has the lock')
