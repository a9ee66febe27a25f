# Locks of any keys, with no names given before, by a client that nobody else has: a page of a folder.
from lockrun import Nodes

nodes = Nodes('nodes 1\nclient a at 0\nclient b at 0\n', families=1000, members=60)
with nodes.client(timeout=1) as client:
    folder = nodes['folder 17']
    with client.lock(folder, 'intention_write'), client.lock(folder['page 4'], 'write', timeout=1):
        print('page 4 is mine')
