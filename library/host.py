"""A host in Python: a builder fills its quota, in a store of this process. Usage: host.py ./libquotafs.so, made by

cc -shared -o libquotafs.so -Wl,--whole-archive libquotafs.a -Wl,--no-whole-archive
"""
import ctypes as c
import sys

ptr, u64, size, text = c.c_void_p, c.c_uint64, c.c_size_t, c.c_char_p
lib = c.CDLL(sys.argv[1])
lib.qfs_open.argtypes = [ptr, text, size, u64, text, size, ptr]
lib.qfs_create.argtypes = [ptr, ptr, u64, text, size, ptr]
lib.qfs_write.argtypes = [ptr, ptr, u64, text, size, u64, text, size, ptr]
lib.qfs_report.argtypes = [ptr, u64, text, size, ptr]
lib.qfs_close.argtypes, lib.qfs_close.restype = [ptr], None


class Session(c.Structure):
    _fields_ = [("is_open", c.c_bool), ("slot", ptr)]


class Caller(c.Structure):
    _fields_ = [("uid", c.c_uint32), ("gid", c.c_uint32), ("count", c.c_uint32), ("groups", c.c_uint32 * 16)]


config = b"""size = "1m"\nnr_inodes = 64\nblock_grace = 60\ninode_grace = 60
user = [{id = 0, name = "root"}, {id = 1000, name = "builder", block_hard = 4}]
group = [{id = 0, name = "root"}, {id = 100, name = "farm"}]"""
session, builder, done = c.byref(Session()), c.byref(Caller(uid=1000, gid=100)), (u64 * 5)()
told, told_len = c.create_string_buffer(4096), size()
room = told, len(told), c.byref(told_len)
print("open", lib.qfs_open(session, config, len(config), 7, *room))
print("create", lib.qfs_create(session, builder, 0, b"/log", 4, done), "inode", done[0])
for offset in 0, 4096:
    print("write", lib.qfs_write(session, builder, 0, b"/log", 4, offset, b"ok\n", 3, done))
print("report", lib.qfs_report(session, 0, *room))
print(told.raw[: told_len.value].decode(), end="")
lib.qfs_close(session)
