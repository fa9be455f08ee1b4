/*
 * A directory of this host, mounted as a guest would see it: owners, and names of extended attributes, are what the
 * maps of the static library make of them. Who asks through the mount is the guest: user 5 of this host asks as user 5
 * of the guest. docs/TRYING.md has the commands that build it, and that show what a configuration does. USAGE, near the
 * end, lists the options.
 *
 * It ends with 0 once it is unmounted, with 1 where it cannot serve the directory, as where a text is refused, and with
 * 2 where its words are wrong.
 *
 * It stands on libfuse 3, and runs as root. Requests come from the kernel of this host, which is trusted with the
 * numbers of nodes and of open files that it was given. A daemon that reads requests from a guest's memory looks these
 * numbers up first.
 */
#define _GNU_SOURCE
#define FUSE_USE_VERSION 31

#include <dirent.h>
#include <errno.h>
#include <fcntl.h>
#include <fuse3/fuse_lowlevel.h>
#include <grp.h>
#include <linux/capability.h>
#include <linux/limits.h>
#include <linux/magic.h>
#include <pthread.h>
#include <sched.h>
#include <signal.h>
#include <stdio.h>
#include <stdlib.h>
#include <string.h>
#include <sys/fsuid.h>
#include <sys/resource.h>
#include <sys/stat.h>
#include <sys/statvfs.h>
#include <sys/syscall.h>
#include <sys/sysmacros.h>
#include <sys/uio.h>
#include <sys/vfs.h>
#include <sys/xattr.h>
#include <unistd.h>

#include "virtiofs_map.h"

#define UNUSED __attribute__((unused))
#define HELD __attribute__((cleanup(let_go))) /* let go of where its function ends */

enum { BUCKETS = 65536, PROC_ROOM = 32, CAPABILITY_ROOM = 24, SHORT_VALUE = 256 };

/* A mount with files that are opened by their handles. */
struct mount {
    struct mount *next;
    int id, fd;   /* its number, and a folder in it, opened for reading: O_PATH does not suffice to open others by it */
    size_t nodes; /* how many need it */
};

/* A file of the directory that the kernel knows by number. It has a descriptor; or a mount and a handle, by which it is
   opened for each request. */
struct node {
    struct node *next; /* of its bucket */
    dev_t dev;
    ino_t ino;
    mode_t mode;       /* its type stays what it is; the rest is not looked at */
    uint64_t generation; /* no other node has this one, though it may have the number of one that is forgotten */
    uint64_t lookups;  /* how often the kernel was told of it, and has not forgotten it */
    int fd;            /* opened with O_PATH: it reads nothing and follows nothing; or -1 */
    struct mount *mount;
    struct file_handle *handle;
};

/* The directory, and how its owners and names are seen. The options and the maps are made before the first request and
   only read from then on, so no thread locks anything to ask them. `lock` is for the nodes and mounts. */
struct share {
    const char *directory;
    int posix_acl, readdirplus;
    double timeout;
    struct virtiofs_maps maps;
    struct node root;
    pthread_mutex_t lock;
    uint64_t generations; /* how many nodes there were */
    size_t held, most; /* how many nodes have a descriptor, and how many may, where the others can have a handle */
    struct mount *mounts;
    struct node *buckets[BUCKETS];
};

static struct share *share_of(fuse_req_t req)
{
    return fuse_req_userdata(req);
}

/* The error of a system call that answered this. */
static int error_after(ssize_t status)
{
    return status < 0 ? errno : 0;
}

/* ---- what the maps say ---- */

/* No file belongs to this number, which chown and setfsuid read as 'leave it as it is'. */
static const uint32_t NO_ID = UINT32_MAX;

static int user_to_host(const struct share *share, uint32_t guest, uint32_t *host)
{
    return virtiofs_code_errno(virtiofs_uids_to_host(share->maps.users, guest, host));
}

static int group_to_host(const struct share *share, uint32_t guest, uint32_t *host)
{
    return virtiofs_code_errno(virtiofs_gids_to_host(share->maps.groups, guest, host));
}

/* The number of a file in the guest, which sees one device only, and takes files with equal numbers for one. So files
   of another file system, which is mounted inside the directory, get numbers with high bits of their own. */
static ino_t number_to_guest(const struct share *share, dev_t dev, ino_t ino)
{
    return ino ^ (dev ^ share->root.dev) * 0x9E3779B97F4A7C15u;
}

/* Makes what the host tells of a file what the guest is told of it. */
static int attributes_to_guest(const struct share *share, struct stat *file)
{
    uint32_t user, group, code = virtiofs_uids_to_guest(share->maps.users, file->st_uid, &user);
    if (code == VIRTIOFS_OK)
        code = virtiofs_gids_to_guest(share->maps.groups, file->st_gid, &group);
    if (code != VIRTIOFS_OK)
        return virtiofs_code_errno(code);
    file->st_uid = user;
    file->st_gid = group;
    file->st_ino = number_to_guest(share, file->st_dev, file->st_ino);
    return 0;
}

static const char *const ACCESS_LISTS[] = { "system.posix_acl_access", "system.posix_acl_default" };

static bool is_access_list(const char *name)
{
    return !strcmp(name, ACCESS_LISTS[0]) || !strcmp(name, ACCESS_LISTS[1]);
}

/* Whether the guest may list and use a name that is this one on the host, whatever the rules say. None in `system.`, on
   either side: for these the kernel tests no right of the caller. It leaves that to the file system, so that anybody in
   the guest could set them on every file. Under `posix_acl` it does test who sets an access control list, but by the
   name alone: for `posix_acl_access`, say, a right to write would do. So a list has its own name on both sides. */
static bool may_cross(const struct share *share, const char *guest, const char *host)
{
    if (share->posix_acl && is_access_list(guest))
        return !strcmp(guest, host);
    return strncmp(guest, "system.", strlen("system.")) && strncmp(host, "system.", strlen("system."));
}

/* The host's name for one of the guest's. */
static int name_to_host(const struct share *share, const char *guest, char host[VIRTIOFS_NAME_ROOM])
{
    if (!may_cross(share, guest, guest))
        return ENOTSUP;
    uint32_t code = virtiofs_name_to_host(share->maps.names, guest, host);
    return code != VIRTIOFS_OK ? virtiofs_code_errno(code) : may_cross(share, guest, host) ? 0 : ENOTSUP;
}

/* Makes a list of the host, behind which a zero stands, the guest's, in `guest` with room for one byte more. */
static int list_to_guest(const struct share *share, const char *host, size_t host_len, char *guest, size_t *len)
{
    const char *end = host + host_len;
    size_t size, shown;
    for (*len = 0; host < end; host += size) {
        char *name = guest + *len;
        size = strlen(host) + 1;
        if (!may_cross(share, host, host))
            continue;
        uint32_t code = virtiofs_list_to_guest(share->maps.names, host, size, name, size, &shown);
        if (code != VIRTIOFS_OK)
            return virtiofs_code_errno(code);
        if (shown && may_cross(share, name, host))
            *len += shown;
    }
    return 0;
}

/* ---- nodes ---- */

static struct node *node_of(struct share *share, fuse_ino_t number)
{
    return number == FUSE_ROOT_ID ? &share->root : (struct node *)(uintptr_t)number;
}

/* A path for the calls that take no descriptor of this kind. It leads to the file that was opened and to no other, also
   where that is a symbolic link, or where its name leads elsewhere by now. */
static const char *proc_path(int fd, char path[PROC_ROOM])
{
    snprintf(path, PROC_ROOM, "/proc/self/fd/%d", fd);
    return path;
}

/* Whether it is the name of something in the directory where it is looked up. */
static bool is_plain(const char *name)
{
    return !strchr(name, '/') && strcmp(name, ".") && strcmp(name, "..");
}

static struct node **bucket_of(struct share *share, dev_t dev, ino_t ino)
{
    return &share->buckets[(ino ^ dev * 31) % BUCKETS];
}

static void close_any(int fd)
{
    if (fd >= 0)
        close(fd);
}

/* The handle of the file behind a descriptor, which leads to it as long as it is there, and never to another one; and
   the number of its mount. NULL: memory ran out, or its file system has no handles, or FUSE's, which need not last. */
static struct file_handle *handle_of(int fd, int *mount_id)
{
    struct file_handle *handle = calloc(1, sizeof *handle + MAX_HANDLE_SZ);
    struct statfs told;
    if (handle) {
        handle->handle_bytes = MAX_HANDLE_SZ;
        if (!name_to_handle_at(fd, "", handle, mount_id, AT_EMPTY_PATH) && !fstatfs(fd, &told)
            && told.f_type != FUSE_SUPER_MAGIC)
            return handle;
    }
    free(handle);
    return NULL;
}

/* The mount of that number. A new one is opened by the folder in which a file was looked up, or, where that is in
   another mount, by the file, which then is what is mounted. NULL: memory ran out, or the file is no folder then, or it
   cannot be opened by its handle, as without CAP_DAC_READ_SEARCH. */
static struct mount *mount_of(struct share *share, int id, struct file_handle *handle, int folder, int file)
{
    char path[PROC_ROOM];
    struct mount *mount = share->mounts;
    for (; mount && mount->id != id; mount = mount->next) { }
    if (mount)
        return mount;
    int folder_id = -1;
    free(handle_of(folder, &folder_id));
    int fd = open(proc_path(folder_id == id ? folder : file, path), O_RDONLY | O_DIRECTORY | O_CLOEXEC);
    int again = open_by_handle_at(fd, handle, O_PATH | O_CLOEXEC);
    if (again >= 0 && (mount = calloc(1, sizeof *mount))) {
        *mount = (struct mount){ share->mounts, id, fd, 0 };
        share->mounts = mount;
        fd = -1;
    }
    close_any(again);
    close_any(fd);
    return mount;
}

/* Whether a node is of a file. While a descriptor holds a file, no other file gets its number. A handle holds nothing,
   and differs from that of a file that gets the number later. */
static bool is_of(const struct node *node, const struct stat *file, const struct file_handle *handle)
{
    const struct file_handle *own = node->handle;
    return node->ino == file->st_ino && node->dev == file->st_dev
        && (!own || (handle && own->handle_bytes == handle->handle_bytes
                     && !memcmp(own, handle, sizeof *own + own->handle_bytes)));
}

/* The node of the file behind a descriptor, which is the node's from then on, or closed. NULL: memory ran out. */
static struct node *found_or_made(struct share *share, const struct stat *file, int folder, int fd)
{
    struct node **bucket = bucket_of(share, file->st_dev, file->st_ino), *node;
    int id = -1;
    pthread_mutex_lock(&share->lock);
    bool is_full = share->held >= share->most;
    struct file_handle *handle = is_full || share->mounts ? handle_of(fd, &id) : NULL;
    for (node = *bucket; node && !is_of(node, file, handle); node = node->next) { }
    if (!node && (node = calloc(1, sizeof *node))) {
        struct mount *mount = is_full && handle ? mount_of(share, id, handle, folder, fd) : NULL;
        *node = (struct node){ *bucket, file->st_dev, file->st_ino, file->st_mode, ++share->generations, 0, -1, mount,
                               handle };
        *bucket = node;
        if (mount) {
            mount->nodes++;
            handle = NULL;
        } else {
            share->held++;
            node->handle = NULL;
            node->fd = fd;
            fd = -1;
        }
    }
    if (node)
        node->lookups++;
    pthread_mutex_unlock(&share->lock);
    free(handle);
    close_any(fd);
    return node;
}

/* A node needs its mount no more. Nothing in it is kept open after the last one, so that the host can unmount it. */
static void leave(struct share *share, struct mount *mount)
{
    struct mount **at = &share->mounts;
    if (--mount->nodes)
        return;
    for (; *at != mount; at = &(*at)->next) { }
    *at = mount->next;
    close(mount->fd);
    free(mount);
}

static void forget(struct share *share, fuse_ino_t number, uint64_t lookups)
{
    struct node *node = node_of(share, number), **at = bucket_of(share, node->dev, node->ino);
    pthread_mutex_lock(&share->lock);
    node->lookups -= lookups;
    bool is_forgotten = !node->lookups && number != FUSE_ROOT_ID;
    if (is_forgotten) {
        for (; *at != node; at = &(*at)->next) { }
        *at = node->next;
        share->held -= node->fd >= 0;
        if (node->mount)
            leave(share, node->mount);
    }
    pthread_mutex_unlock(&share->lock);
    if (is_forgotten) {
        close_any(node->fd);
        free(node->handle);
        free(node);
    }
}

/* A node's descriptor for one request, and the error where there is none: ESTALE for a file that is gone. */
struct held {
    int fd, error, closed; /* the last one is closed then, if it is not below 0 */
};

/* A thread holds what it needs before it acts as the caller, who may open nothing by a handle. */
static struct held hold(fuse_req_t req, fuse_ino_t number)
{
    const struct node *node = node_of(share_of(req), number);
    if (!node->mount)
        return (struct held){ node->fd, 0, -1 };
    int fd = open_by_handle_at(node->mount->fd, node->handle, O_PATH | O_CLOEXEC);
    return (struct held){ fd, error_after(fd), fd };
}

static void let_go(const struct held *held)
{
    close_any(held->closed);
}

/* Makes an entry of the file behind a descriptor, which is a node's from then on, or closed. Below 0 it is that of a
   call that failed. Where there is no error, the kernel is told of the entry, or it is forgotten. */
static int entry_of(fuse_req_t req, int folder, int fd, struct fuse_entry_param *entry)
{
    struct share *share = share_of(req);
    struct stat file = { 0 };
    int error = fd < 0 ? errno : error_after(fstat(fd, &file));
    *entry = (struct fuse_entry_param){ .attr = file, .attr_timeout = share->timeout, .entry_timeout = share->timeout };
    if (!error)
        error = attributes_to_guest(share, &entry->attr);
    if (!error) {
        const struct node *node = found_or_made(share, &file, folder, fd);
        entry->ino = (uintptr_t)node;
        entry->generation = node ? node->generation : 0;
        return node ? 0 : ENOMEM;
    }
    close_any(fd);
    return error;
}

/* The same of what stands under a name. */
static int look_up(fuse_req_t req, int folder, const char *name, struct fuse_entry_param *entry)
{
    if (!is_plain(name))
        return EINVAL;
    return entry_of(req, folder, openat(folder, name, O_PATH | O_NOFOLLOW | O_CLOEXEC), entry);
}

/* Answers with an error, or with what stands under a name. */
static void reply_entry(fuse_req_t req, int error, int folder, const char *name)
{
    struct fuse_entry_param entry;
    if (!error)
        error = look_up(req, folder, name, &entry);
    error ? fuse_reply_err(req, error) : fuse_reply_entry(req, &entry);
}

/* ---- acting as the caller ---- */

/* Takes capabilities from this thread, and gives it those of others that it may have. */
static int change_capabilities(uint64_t taken, uint64_t given)
{
    struct __user_cap_header_struct header = { _LINUX_CAPABILITY_VERSION_3, 0 };
    struct __user_cap_data_struct sets[_LINUX_CAPABILITY_U32S_3];
    if (syscall(SYS_capget, &header, sets))
        return errno;
    for (int i = 0; i < _LINUX_CAPABILITY_U32S_3; i++) {
        sets[i].effective &= ~(uint32_t)(taken >> 32 * i);
        sets[i].effective |= (uint32_t)(given >> 32 * i) & sets[i].permitted;
    }
    return syscall(SYS_capset, &header, sets) ? errno : 0;
}

static void act_as_root(void)
{
    if (setfsuid(0)) /* (it tells who the thread acted as) */
        change_capabilities(0, 1ull << CAP_SYS_RESOURCE);
    setfsgid(0);
    umask(0);
}

/* Makes this thread, and no other, act on files as a user and a group of the host, until act_as_root. A user other than
   0 has no capability that concerns files but the one that is given; nor that one with which a thread fills what a file
   system keeps in reserve, and more than a quota leaves. */
static int act_as(uint32_t user, uint32_t group, int capability)
{
    setfsgid(group);
    setfsuid(user);
    /* (These two calls tell no error. Asked with a number that nobody has, they tell what is set.) */
    bool is_set = (uint32_t)setfsgid(NO_ID) == group && (uint32_t)setfsuid(NO_ID) == user;
    int error = !is_set ? EPERM : user ? change_capabilities(1ull << CAP_SYS_RESOURCE, 1ull << capability) : 0;
    if (error)
        act_as_root();
    return error;
}

/* The host's ids of the caller. */
static int caller_on_host(fuse_req_t req, uint32_t *user, uint32_t *group)
{
    int error = user_to_host(share_of(req), fuse_req_ctx(req)->uid, user);
    return error ? error : group_to_host(share_of(req), fuse_req_ctx(req)->gid, group);
}

/* Makes this thread act as the caller. What is made so belongs to the caller from its first moment on, whatever kills
   the daemon. The kernel gives it the group of its folder or what a default list asks for, and counts it to the right
   quota. A chown after the fact would leave a file of root's between the two calls. setfsuid changes one thread, where
   the C library's seteuid changes all. The umask is the caller's too, since only the host's kernel knows whether a
   default list takes its place. It belongs to all threads, until one asks for its own. */
static int act_as_caller(fuse_req_t req, int capability)
{
    static __thread bool has_own_umask;
    uint32_t user, group;
    int error = caller_on_host(req, &user, &group);
    if (error)
        return error;
    if (!has_own_umask && unshare(CLONE_FS))
        return errno;
    has_own_umask = true;
    error = act_as(user, group, capability);
    if (!error)
        umask(fuse_req_ctx(req)->umask);
    return error;
}

/* Makes this thread act as the caller who writes to an open file; or as the file's owner, if the kernel writes what was
   stored by mmap, which it does in nobody's name, or if the host has no such caller. It takes no bits from the mode. */
static int act_as_writer(fuse_req_t req, const struct fuse_file_info *opened)
{
    struct stat file;
    uint32_t user, group;
    if (opened->writepage || caller_on_host(req, &user, &group)) {
        if (fstat((int)opened->fh, &file))
            return errno;
        user = file.st_uid;
        group = file.st_gid;
    }
    return act_as(user, group, CAP_FSETID);
}

/* Begins to make something under a name. The kernel has tested the caller's rights by the guest's ids, with all groups
   of the caller (default_permissions). The host's ids are not asked again, since only one group is known here. */
static int begin_making(fuse_req_t req, const struct held *folder, const char *name)
{
    return folder->error ? folder->error : is_plain(name) ? act_as_caller(req, CAP_DAC_OVERRIDE) : EINVAL;
}

/* Ends it, or a write. Tells the error of the call that was made as the caller. */
static int end_acting(ssize_t status)
{
    int error = error_after(status);
    act_as_root();
    return error;
}

/* ---- requests about names ---- */

static void on_lookup(fuse_req_t req, fuse_ino_t parent, const char *name)
{
    const struct held folder HELD = hold(req, parent);
    reply_entry(req, folder.error, folder.fd, name);
}

static void on_mkdir(fuse_req_t req, fuse_ino_t parent, const char *name, mode_t mode)
{
    const struct held folder HELD = hold(req, parent);
    int error = begin_making(req, &folder, name);
    reply_entry(req, error ? error : end_acting(mkdirat(folder.fd, name, mode)), folder.fd, name);
}

/* A device is made only where the caller is root on the host too: no other user gets CAP_MKNOD. */
static void on_mknod(fuse_req_t req, fuse_ino_t parent, const char *name, mode_t mode, dev_t device)
{
    const struct held folder HELD = hold(req, parent);
    int error = begin_making(req, &folder, name);
    reply_entry(req, error ? error : end_acting(mknodat(folder.fd, name, mode, device)), folder.fd, name);
}

static void on_symlink(fuse_req_t req, const char *text, fuse_ino_t parent, const char *name)
{
    const struct held folder HELD = hold(req, parent);
    int error = begin_making(req, &folder, name);
    reply_entry(req, error ? error : end_acting(symlinkat(text, folder.fd, name)), folder.fd, name);
}

static void on_link(fuse_req_t req, fuse_ino_t number, fuse_ino_t parent, const char *name)
{
    char path[PROC_ROOM];
    const struct held file HELD = hold(req, number), folder HELD = hold(req, parent);
    int error = file.error ? file.error : folder.error;
    if (!error && is_plain(name))
        error = error_after(linkat(AT_FDCWD, proc_path(file.fd, path), folder.fd, name, AT_SYMLINK_FOLLOW));
    reply_entry(req, error, folder.fd, name);
}

static void on_unlink(fuse_req_t req, fuse_ino_t parent, const char *name)
{
    const struct held folder HELD = hold(req, parent);
    int error = is_plain(name) ? folder.error : EINVAL;
    fuse_reply_err(req, error ? error : error_after(unlinkat(folder.fd, name, 0)));
}

static void on_rmdir(fuse_req_t req, fuse_ino_t parent, const char *name)
{
    const struct held folder HELD = hold(req, parent);
    int error = is_plain(name) ? folder.error : EINVAL;
    fuse_reply_err(req, error ? error : error_after(unlinkat(folder.fd, name, AT_REMOVEDIR)));
}

/* The third flag that there is would leave a device of root's behind. */
static void on_rename(fuse_req_t req, fuse_ino_t parent, const char *name, fuse_ino_t new_parent, const char *new_name,
                      unsigned int flags)
{
    const struct held from HELD = hold(req, parent), to HELD = hold(req, new_parent);
    int error = from.error ? from.error : to.error;
    if (!is_plain(name) || !is_plain(new_name) || flags & ~(unsigned)(RENAME_NOREPLACE | RENAME_EXCHANGE))
        error = EINVAL;
    fuse_reply_err(req, error ? error : error_after(renameat2(from.fd, name, to.fd, new_name, flags)));
}

static void on_readlink(fuse_req_t req, fuse_ino_t number)
{
    char text[PATH_MAX + 1];
    const struct held link HELD = hold(req, number);
    ssize_t len = link.error ? 0 : readlinkat(link.fd, "", text, PATH_MAX);
    int error = link.error ? link.error : error_after(len);
    text[error ? 0 : len] = '\0';
    error ? fuse_reply_err(req, error) : fuse_reply_readlink(req, text);
}

static void on_forget(fuse_req_t req, fuse_ino_t number, uint64_t lookups)
{
    forget(share_of(req), number, lookups);
    fuse_reply_none(req);
}

/* ---- requests about owners, modes, sizes and times ---- */

static void on_getattr(fuse_req_t req, fuse_ino_t number, struct fuse_file_info *opened UNUSED)
{
    struct stat told;
    const struct held file HELD = hold(req, number);
    int error = file.error ? file.error : error_after(fstat(file.fd, &told));
    if (!error)
        error = attributes_to_guest(share_of(req), &told);
    error ? fuse_reply_err(req, error) : fuse_reply_attr(req, &told, share_of(req)->timeout);
}

/* Both owners of a request are mapped before either is set, so that one that is forbidden changes nothing. */
static int set_owners(fuse_req_t req, int fd, const struct stat *wanted, int which)
{
    uint32_t user = NO_ID, group = NO_ID;
    int error = 0;
    if (which & FUSE_SET_ATTR_UID)
        error = user_to_host(share_of(req), wanted->st_uid, &user);
    if (!error && which & FUSE_SET_ATTR_GID)
        error = group_to_host(share_of(req), wanted->st_gid, &group);
    if (!error && which & (FUSE_SET_ATTR_UID | FUSE_SET_ATTR_GID))
        error = error_after(fchownat(fd, "", user, group, AT_EMPTY_PATH));
    return error;
}

static struct timespec time_for(struct timespec given, bool is_given, bool is_now)
{
    given.tv_nsec = is_now ? UTIME_NOW : is_given ? given.tv_nsec : UTIME_OMIT;
    return given;
}

/* Owners come first: a chown takes bits from the mode, and what is forbidden changes nothing. */
static void on_setattr(fuse_req_t req, fuse_ino_t number, struct stat *wanted, int which,
                       struct fuse_file_info *opened)
{
    char path[PROC_ROOM];
    const struct held file HELD = hold(req, number);
    int error = file.error ? file.error : set_owners(req, file.fd, wanted, which);
    const struct timespec times[2] = {
        time_for(wanted->st_atim, which & FUSE_SET_ATTR_ATIME, which & FUSE_SET_ATTR_ATIME_NOW),
        time_for(wanted->st_mtim, which & FUSE_SET_ATTR_MTIME, which & FUSE_SET_ATTR_MTIME_NOW),
    };
    proc_path(file.fd, path);
    if (!error && which & FUSE_SET_ATTR_MODE)
        error = error_after(chmod(path, wanted->st_mode));
    if (!error && which & FUSE_SET_ATTR_SIZE)
        error = error_after(opened ? ftruncate((int)opened->fh, wanted->st_size) : truncate(path, wanted->st_size));
    if (!error && (times[0].tv_nsec != UTIME_OMIT || times[1].tv_nsec != UTIME_OMIT))
        error = error_after(utimensat(AT_FDCWD, path, times, 0));
    if (error)
        fuse_reply_err(req, error);
    else
        on_getattr(req, number, opened);
}

/* ---- requests about open files ---- */

/* The flags that a file is opened with. The others were seen to by the kernel that asks, or are none for a guest. Not
   so O_APPEND: each write says for itself whether it goes to the end, and what was stored by mmap does not. */
static int flags_for(int flags)
{
    return (flags & (O_ACCMODE | O_SYNC | O_DSYNC | O_NOATIME)) | O_CLOEXEC;
}

/* Makes a file and opens it. If it is there already, though the kernel did not find it, it was made on the host since.
   It is not opened here, where nobody has tested the caller's rights to it: on ESTALE the kernel looks again. */
static void make_and_open(fuse_req_t req, fuse_ino_t parent, const char *name, mode_t mode, int how,
                          struct fuse_file_info *opened)
{
    struct fuse_entry_param entry;
    char path[PROC_ROOM];
    const struct held folder HELD = hold(req, parent);
    int fd = -1, error = how & O_CREAT && !is_plain(name) ? EINVAL : folder.error;
    if (!error)
        error = act_as_caller(req, CAP_DAC_OVERRIDE);
    if (!error) {
        fd = openat(folder.fd, name, flags_for(opened->flags) | how, mode);
        error = end_acting(fd);
    }
    if (error == EEXIST && !(opened->flags & O_EXCL))
        error = ESTALE;
    if (!error)
        error = entry_of(req, folder.fd, open(proc_path(fd, path), O_PATH | O_CLOEXEC), &entry);
    if (error)
        close_any(fd);
    opened->fh = (uint64_t)fd;
    error ? fuse_reply_err(req, error) : fuse_reply_create(req, &entry, opened);
}

static void on_create(fuse_req_t req, fuse_ino_t parent, const char *name, mode_t mode, struct fuse_file_info *opened)
{
    make_and_open(req, parent, name, mode, O_CREAT | O_EXCL, opened);
}

/* Pipes and devices of the guest are opened by its own kernel. Opened here, they would be the host's. */
static void on_open(fuse_req_t req, fuse_ino_t number, struct fuse_file_info *opened)
{
    char path[PROC_ROOM];
    const struct held file HELD = hold(req, number);
    int fd = -1, error = S_ISREG(node_of(share_of(req), number)->mode) ? file.error : EPERM;
    if (!error) {
        fd = open(proc_path(file.fd, path), flags_for(opened->flags));
        error = error_after(fd);
    }
    opened->fh = (uint64_t)fd;
    error ? fuse_reply_err(req, error) : fuse_reply_open(req, opened);
}

static void on_read(fuse_req_t req, fuse_ino_t number UNUSED, size_t size, off_t at, struct fuse_file_info *opened)
{
    struct fuse_bufvec bytes = FUSE_BUFVEC_INIT(size);
    bytes.buf[0].flags = FUSE_BUF_IS_FD | FUSE_BUF_FD_SEEK;
    bytes.buf[0].fd = (int)opened->fh;
    bytes.buf[0].pos = at;
    fuse_reply_data(req, &bytes, 0);
}

/* Answers with how many bytes a call has written, which was made as the writer. */
static int reply_written(fuse_req_t req, ssize_t written)
{
    int error = end_acting(written);
    return error ? fuse_reply_err(req, error) : fuse_reply_write(req, (size_t)written);
}

static void on_write(fuse_req_t req, fuse_ino_t number UNUSED, const char *bytes, size_t size, off_t at,
                     struct fuse_file_info *opened)
{
    const struct iovec all = { (void *)(uintptr_t)bytes, size };
    int error = act_as_writer(req, opened), flags = opened->flags & O_APPEND ? RWF_APPEND : 0;
    error ? fuse_reply_err(req, error) : reply_written(req, pwritev2((int)opened->fh, &all, 1, at, flags));
}

static void on_copy_file_range(fuse_req_t req, fuse_ino_t number UNUSED, off_t from_at, struct fuse_file_info *from,
                               fuse_ino_t other UNUSED, off_t to_at, struct fuse_file_info *to, size_t len, int flags)
{
    int in = (int)from->fh, out = (int)to->fh, error = act_as_writer(req, to);
    error ? fuse_reply_err(req, error)
          : reply_written(req, copy_file_range(in, &from_at, out, &to_at, len, (unsigned)flags));
}

static void on_fallocate(fuse_req_t req, fuse_ino_t number UNUSED, int mode, off_t at, off_t len,
                         struct fuse_file_info *opened)
{
    int error = act_as_writer(req, opened);
    fuse_reply_err(req, error ? error : end_acting(fallocate((int)opened->fh, mode, at, len)));
}

/* The kernel that asks sees to all but SEEK_DATA and SEEK_HOLE. */
static void on_lseek(fuse_req_t req, fuse_ino_t number UNUSED, off_t at, int whence, struct fuse_file_info *opened)
{
    off_t found = lseek((int)opened->fh, at, whence);
    found < 0 ? fuse_reply_err(req, errno) : fuse_reply_lseek(req, found);
}

/* A descriptor of the guest is closed. On some file systems an error of earlier writes is told then. */
static void on_flush(fuse_req_t req, fuse_ino_t number UNUSED, struct fuse_file_info *opened)
{
    int copy = dup((int)opened->fh);
    fuse_reply_err(req, copy < 0 ? 0 : error_after(close(copy)));
}

static void on_fsync(fuse_req_t req, fuse_ino_t number UNUSED, int only_data, struct fuse_file_info *opened)
{
    fuse_reply_err(req, error_after(only_data ? fdatasync((int)opened->fh) : fsync((int)opened->fh)));
}

static void on_release(fuse_req_t req, fuse_ino_t number UNUSED, struct fuse_file_info *opened)
{
    fuse_reply_err(req, error_after(close((int)opened->fh)));
}

#if FUSE_VERSION >= FUSE_MAKE_VERSION(3, 18)
/* Makes a file without a name. */
static void on_tmpfile(fuse_req_t req, fuse_ino_t parent, mode_t mode, struct fuse_file_info *opened)
{
    make_and_open(req, parent, ".", mode, O_TMPFILE | (opened->flags & O_EXCL), opened);
}

/* Tells the time of birth too. */
static void on_statx(fuse_req_t req, fuse_ino_t number, int flags, int mask, struct fuse_file_info *opened UNUSED)
{
    struct statx told = { 0 };
    const struct held held HELD = hold(req, number);
    int error = held.error;
    if (!error)
        error = error_after(statx(held.fd, "", flags | AT_EMPTY_PATH, (unsigned)mask, &told));
    struct stat file = { .st_dev = makedev(told.stx_dev_major, told.stx_dev_minor), .st_ino = told.stx_ino,
                         .st_uid = told.stx_uid, .st_gid = told.stx_gid };
    if (!error)
        error = attributes_to_guest(share_of(req), &file);
    told.stx_ino = file.st_ino;
    told.stx_uid = file.st_uid;
    told.stx_gid = file.st_gid;
    error ? fuse_reply_err(req, error) : fuse_reply_statx(req, 0, &told, share_of(req)->timeout);
}
#endif

/* ---- requests about open folders ---- */

static void on_opendir(fuse_req_t req, fuse_ino_t number, struct fuse_file_info *opened)
{
    const struct held file HELD = hold(req, number);
    int fd = file.error ? -1 : openat(file.fd, ".", flags_for(opened->flags) | O_DIRECTORY);
    DIR *folder = fd < 0 ? NULL : fdopendir(fd);
    int error = file.error ? file.error : folder ? 0 : errno;
    opened->fh = (uintptr_t)folder;
    if (error)
        close_any(fd);
    error ? fuse_reply_err(req, error) : fuse_reply_open(req, opened);
}

/* Adds an entry, or tells how much room it takes. With `plus` it comes with what a look-up tells, if that succeeds. */
static size_t add_entry(fuse_req_t req, dev_t dev, DIR *folder, char *to, size_t room, const struct dirent *it,
                        bool plus)
{
    ino_t ino = number_to_guest(share_of(req), dev, it->d_ino);
    const struct stat file = { .st_ino = ino, .st_mode = (mode_t)DTTOIF(it->d_type) };
    struct fuse_entry_param entry;
    if (!plus)
        return fuse_add_direntry(req, to, room, it->d_name, &file, it->d_off);
    bool is_told = !look_up(req, dirfd(folder), it->d_name, &entry);
    if (!is_told)
        entry = (struct fuse_entry_param){ .attr = file };
    size_t taken = fuse_add_direntry_plus(req, to, room, it->d_name, &entry, it->d_off);
    if (is_told && taken > room)
        forget(share_of(req), entry.ino, 1);
    return taken;
}

/* Answers with as many entries as there is room for. Entries go before an error: the next request meets it again. */
static void list_folder(fuse_req_t req, fuse_ino_t number, size_t size, off_t at, DIR *folder, bool plus)
{
    char *entries = malloc(size);
    size_t len = 0, taken = 0;
    const struct dirent *entry = NULL;
    int error = entries ? 0 : ENOMEM;
    if (telldir(folder) != at)
        seekdir(folder, at);
    while (!error && taken <= size - len) {
        len += taken;
        errno = 0;
        entry = readdir(folder);
        error = errno;
        if (!entry)
            break;
        taken = add_entry(req, node_of(share_of(req), number)->dev, folder, entries + len, size - len, entry, plus);
    }
    error && !len ? fuse_reply_err(req, error) : fuse_reply_buf(req, entries, len);
    free(entries);
}

static void on_readdir(fuse_req_t req, fuse_ino_t number, size_t size, off_t at, struct fuse_file_info *opened)
{
    list_folder(req, number, size, at, (DIR *)(uintptr_t)opened->fh, false);
}

static void on_readdirplus(fuse_req_t req, fuse_ino_t number, size_t size, off_t at, struct fuse_file_info *opened)
{
    list_folder(req, number, size, at, (DIR *)(uintptr_t)opened->fh, true);
}

static void on_fsyncdir(fuse_req_t req, fuse_ino_t number UNUSED, int only_data, struct fuse_file_info *opened)
{
    int fd = dirfd((DIR *)(uintptr_t)opened->fh);
    fuse_reply_err(req, error_after(only_data ? fdatasync(fd) : fsync(fd)));
}

static void on_releasedir(fuse_req_t req, fuse_ino_t number UNUSED, struct fuse_file_info *opened)
{
    fuse_reply_err(req, error_after(closedir((DIR *)(uintptr_t)opened->fh)));
}

static void on_statfs(fuse_req_t req, fuse_ino_t number)
{
    struct statvfs told;
    const struct held file HELD = hold(req, number);
    int error = file.error ? file.error : error_after(fstatvfs(file.fd, &told));
    error ? fuse_reply_err(req, error) : fuse_reply_statfs(req, &told);
}

/* ---- requests about extended attributes ---- */

static uint32_t list_across(const struct share *share, bool to_host, uint8_t *value, size_t len)
{
    struct virtiofs_fault fault;
    size_t room = len / 8 + 1;
    struct virtiofs_entry_room *entries = calloc(room, sizeof *entries);
    if (!entries)
        return VIRTIOFS_NO_MEMORY;
    const struct virtiofs_maps *maps = &share->maps;
    uint32_t code = (to_host ? virtiofs_acl_to_host : virtiofs_acl_to_guest)(maps->users, maps->groups, value, len,
                                                                             entries, room, &fault);
    free(entries);
    return code;
}

/* A capability without a field for the id of root gets one, where this id does not stay 0. */
static uint32_t capability_across(const struct share *share, bool to_host, uint8_t *value, size_t *len)
{
    struct virtiofs_fault fault;
    uint8_t written[CAPABILITY_ROOM];
    const struct virtiofs_uids users = share->maps.users;
    uint32_t code = (to_host ? virtiofs_capability_to_host : virtiofs_capability_to_guest)(users, value, *len, &fault);
    if (code != VIRTIOFS_ROOT_MOVES)
        return code;
    code = (to_host ? virtiofs_capability_to_host_in_revision_3 : virtiofs_capability_to_guest_in_revision_3)(
        users, value, *len, written, &fault);
    if (code == VIRTIOFS_OK)
        memcpy(value, written, *len = sizeof written);
    return code;
}

/* Makes the ids in a value of the host's attribute of that name those of the other side, in place, with room for
   CAPABILITY_ROOM bytes at least. A value with an id that may not cross, or with two that would become one, is not set,
   and is not told: whoever is asked for rights by it then refuses. */
static int value_across(const struct share *share, bool to_host, const char *host_name, uint8_t *value, size_t *len)
{
    switch (virtiofs_carries_ids((const uint8_t *)host_name, strlen(host_name))) {
    case VIRTIOFS_ACL: return virtiofs_code_errno(list_across(share, to_host, value, *len));
    case VIRTIOFS_CAPABILITY: return virtiofs_code_errno(capability_across(share, to_host, value, len));
    default: return 0;
    }
}

/* Answers with bytes, or with how many there are, where the caller has no room and asks for that alone. */
static void reply_bytes(fuse_req_t req, int error, const void *bytes, size_t len, size_t room)
{
    if (!error && room && len > room)
        error = ERANGE;
    error ? fuse_reply_err(req, error) : room ? fuse_reply_buf(req, bytes, len) : fuse_reply_xattr(req, len);
}

/* The whole value is read, also where its length is asked: that of the guest's may be another. Few are long, and the
   kernel clears as much memory as it is told that there is. */
static void on_getxattr(fuse_req_t req, fuse_ino_t number, const char *guest_name, size_t room)
{
    char name[VIRTIOFS_NAME_ROOM], path[PROC_ROOM];
    uint8_t value[XATTR_SIZE_MAX];
    size_t len = 0;
    const struct held file HELD = hold(req, number);
    int error = file.error ? file.error : name_to_host(share_of(req), guest_name, name);
    proc_path(file.fd, path);
    if (!error) {
        ssize_t read = getxattr(path, name, value, SHORT_VALUE);
        if (read < 0 && errno == ERANGE)
            read = getxattr(path, name, value, sizeof value);
        error = error_after(read);
        len = error ? 0 : (size_t)read;
    }
    if (!error)
        error = value_across(share_of(req), false, name, value, &len);
    reply_bytes(req, error, value, len, room);
}

static void on_listxattr(fuse_req_t req, fuse_ino_t number, size_t room)
{
    char path[PROC_ROOM], host[XATTR_LIST_MAX + 1], guest[XATTR_LIST_MAX + 1];
    size_t len = 0;
    const struct held file HELD = hold(req, number);
    ssize_t read = file.error ? 0 : listxattr(proc_path(file.fd, path), host, XATTR_LIST_MAX);
    int error = file.error ? file.error : error_after(read);
    host[error ? 0 : read] = '\0';
    if (!error)
        error = list_to_guest(share_of(req), host, (size_t)read, guest, &len);
    reply_bytes(req, error, guest, len, room);
}

/* An access control list of a caller other than root is set as that caller: where it is not in the file's group, the
   host's kernel then takes the bit for set-group-id from the file, as a chmod would. */
static void on_setxattr(fuse_req_t req, fuse_ino_t number, const char *guest_name, const char *value, size_t len,
                        int flags)
{
    char name[VIRTIOFS_NAME_ROOM], path[PROC_ROOM];
    uint8_t changed[XATTR_SIZE_MAX + CAPABILITY_ROOM];
    const struct held file HELD = hold(req, number);
    int error = len > XATTR_SIZE_MAX ? E2BIG : file.error ? file.error : name_to_host(share_of(req), guest_name, name);
    if (!error) {
        memcpy(changed, value, len);
        error = value_across(share_of(req), true, name, changed, &len);
    }
    bool is_as_caller = !error && fuse_req_ctx(req)->uid && is_access_list(name);
    if (is_as_caller)
        error = act_as_caller(req, CAP_FOWNER);
    if (!error)
        error = error_after(setxattr(proc_path(file.fd, path), name, changed, len, flags));
    if (is_as_caller)
        act_as_root();
    fuse_reply_err(req, error);
}

static void on_removexattr(fuse_req_t req, fuse_ino_t number, const char *guest_name)
{
    char name[VIRTIOFS_NAME_ROOM], path[PROC_ROOM];
    const struct held file HELD = hold(req, number);
    int error = file.error ? file.error : name_to_host(share_of(req), guest_name, name);
    if (!error)
        error = error_after(removexattr(proc_path(file.fd, path), name));
    fuse_reply_err(req, error);
}

/* ---- the file system ---- */

/* What is left to the kernel that asks. It takes the bits for set-user-id and the capabilities from a file that is
   written to or cut short, since this program does both as it is told; it obeys access control lists, and where it
   cannot, they stay hidden. The umask is left to the host's kernel. */
static void on_init(void *userdata, struct fuse_conn_info *connection)
{
    struct share *share = userdata;
    connection->want |= FUSE_CAP_DONT_MASK;
    connection->want &= ~(unsigned)(FUSE_CAP_HANDLE_KILLPRIV | FUSE_CAP_ATOMIC_O_TRUNC);
    if (!share->readdirplus)
        connection->want &= ~(unsigned)(FUSE_CAP_READDIRPLUS | FUSE_CAP_READDIRPLUS_AUTO);
    share->posix_acl = share->posix_acl && connection->capable & FUSE_CAP_POSIX_ACL;
    if (share->posix_acl)
        connection->want |= FUSE_CAP_POSIX_ACL;
}

static const struct fuse_lowlevel_ops OPERATIONS = {
    .init = on_init, .statfs = on_statfs, .lookup = on_lookup, .forget = on_forget, .link = on_link,
    .unlink = on_unlink, .rmdir = on_rmdir, .rename = on_rename, .readlink = on_readlink, .mknod = on_mknod,
    .mkdir = on_mkdir, .symlink = on_symlink, .getattr = on_getattr, .setattr = on_setattr, .create = on_create,
    .open = on_open, .read = on_read, .write = on_write, .copy_file_range = on_copy_file_range,
    .fallocate = on_fallocate, .lseek = on_lseek, .flush = on_flush, .fsync = on_fsync, .release = on_release,
    .opendir = on_opendir, .readdir = on_readdir, .readdirplus = on_readdirplus, .fsyncdir = on_fsyncdir,
    .releasedir = on_releasedir, .getxattr = on_getxattr, .listxattr = on_listxattr, .setxattr = on_setxattr,
    .removexattr = on_removexattr,
#if FUSE_VERSION >= FUSE_MAKE_VERSION(3, 18)
    .tmpfile = on_tmpfile, .statx = on_statx,
#endif
};

static void *cancelled(void *data)
{
    pause();
    return data;
}

/* Answers requests until it is unmounted, or a signal ends it, whose number fuse_session_loop returns. At the end
   libfuse cancels its threads. The first time, the C library opens a file for that, and aborts where it cannot. So
   a thread is cancelled before the first request, when descriptors are left. */
static int answer(struct fuse_session *session, const struct fuse_cmdline_opts *words)
{
    pthread_t thread;
    if (fuse_daemonize(words->foreground) || pthread_create(&thread, NULL, cancelled, NULL) || pthread_cancel(thread)
        || pthread_join(thread, NULL))
        return 1;
    return (words->singlethread ? fuse_session_loop(session) : fuse_session_loop_mt(session, words->clone_fd)) < 0;
}

static int serve(struct share *share, struct fuse_args *args, const struct fuse_cmdline_opts *words)
{
    struct fuse_session *session = fuse_session_new(args, &OPERATIONS, sizeof OPERATIONS, share);
    int status = 1;
    if (!session)
        return 1;
    if (!fuse_set_signal_handlers(session) && !fuse_session_mount(session, words->mountpoint)) {
        status = answer(session, words);
        fuse_session_unmount(session);
    }
    fuse_remove_signal_handlers(session);
    fuse_session_destroy(session);
    return status;
}

/* ---- what it is told on its command line ---- */

static const char USAGE[] =
    "usage: mapped_fs [OPTION].. DIRECTORY MOUNTPOINT\n\n"
    "    -o translate_uid=SPEC  a specification of user ids, as often as needed\n"
    "    -o translate_gid=SPEC  the same for groups\n"
    "    -o xattrmap=RULES      the rules for names; without it each name passes as it is\n"
    "                           (in these texts a comma is written \\, and a backslash \\\\)\n"
    "    -o posix_acl           access control lists cross, with their ids; without it\n"
    "                           they are hidden and unsupported\n"
    "    -o timeout=SECONDS     how long the kernel goes by what it was told of a file,\n"
    "                           though the host may have changed it since; without it 0\n"
    "    -o readdirplus         who lists a folder is told of its files too\n";

enum { USERS, GROUPS, RULES };

/* The values of these options, which may be given more than once. */
static struct fuse_args VALUES[3];

static const struct fuse_opt OPTIONS[] = {
    { "translate_uid=", UINT32_MAX, USERS }, /* (FUSE_OPT_KEY, of which clang complains) */
    { "translate_gid=", UINT32_MAX, GROUPS },
    { "xattrmap=", UINT32_MAX, RULES },
    { "posix_acl", offsetof(struct share, posix_acl), 1 },
    { "readdirplus", offsetof(struct share, readdirplus), 1 },
    { "timeout=%lf", offsetof(struct share, timeout), 0 },
    FUSE_OPT_END,
};

/* Takes what is this program's own: 0. The rest is libfuse's: 1. */
static int on_option(void *data, const char *word, int key, struct fuse_args *others UNUSED)
{
    struct share *share = data;
    if (key >= 0)
        return fuse_opt_add_arg(&VALUES[key], strchr(word, '=') + 1);
    if (key != FUSE_OPT_KEY_NONOPT || share->directory)
        return 1;
    share->directory = word;
    return 0;
}

/* ---- making the maps ---- */

/* Makes the maps, in memory that is kept until the end. Where it cannot, it says why. The last rules that are given
   count. */
static bool made_maps(struct virtiofs_maps *maps)
{
    static const char *const names[] = { "start", "translate_uid", "translate_gid", "xattrmap" };
    const struct fuse_args *users = &VALUES[USERS], *groups = &VALUES[GROUPS], *rules = &VALUES[RULES];
    const struct virtiofs_options options = { users->argv, (size_t)users->argc, groups->argv, (size_t)groups->argc,
                                              rules->argc ? rules->argv[rules->argc - 1] : NULL };
    struct virtiofs_refusal refusal;
    if (virtiofs_maps_make(&options, maps, &refusal) == VIRTIOFS_OK)
        return true;
    fprintf(stderr, "mapped_fs: %s: %s\n", names[refusal.option], refusal.sentence);
    return false;
}

/* Whether a name is the same on both sides. */
static bool stays(const struct share *share, const char *name)
{
    char host[VIRTIOFS_NAME_ROOM], guest[VIRTIOFS_NAME_ROOM];
    size_t len;
    return !name_to_host(share, name, host) && !strcmp(host, name)
        && !list_to_guest(share, name, strlen(name) + 1, guest, &len) && len && !strcmp(guest, name);
}

/* Makes all that requests are answered with. Where it cannot, it says why. */
static bool is_ready(struct share *share)
{
    struct stat file;
    if (!made_maps(&share->maps))
        return false;
    for (int i = 0; i < 2; i++) {
        if (share->posix_acl && !stays(share, ACCESS_LISTS[i])) {
            fprintf(stderr, "mapped_fs: posix_acl: the rules of xattrmap rename or hide %s, and the host obeys and "
                            "inherits a list under this name alone\n", ACCESS_LISTS[i]);
            return false;
        }
    }
    share->root.fd = open(share->directory, O_PATH | O_DIRECTORY | O_CLOEXEC);
    if (share->root.fd < 0 || fstat(share->root.fd, &file)) {
        fprintf(stderr, "mapped_fs: %s: %s\n", share->directory, strerror(errno));
        return false;
    }
    share->root.dev = file.st_dev;
    return !pthread_mutex_init(&share->lock, NULL);
}

/* What this process is for the host: it has no umask and no groups of its own, and as many open files as Linux allows,
   half of them for nodes. A write past its own limit for files is an error, and does not end it. */
static bool is_settled(struct share *share)
{
    struct rlimit files = { 1 << 20, 1 << 20 };
    if (setrlimit(RLIMIT_NOFILE, &files) && !getrlimit(RLIMIT_NOFILE, &files)) {
        files.rlim_cur = files.rlim_max;
        setrlimit(RLIMIT_NOFILE, &files);
    }
    share->most = files.rlim_cur / 2;
    signal(SIGXFSZ, SIG_IGN);
    umask(0);
    if (!setgroups(0, NULL))
        return true;
    fprintf(stderr, "mapped_fs: it sets owners, and is run by root alone\n");
    return false;
}

int main(int argc, char **argv)
{
    static struct share share;
    struct fuse_args args = FUSE_ARGS_INIT(argc, argv);
    struct fuse_cmdline_opts words;
    int status = 0;
    if (fuse_opt_parse(&args, &share, OPTIONS, on_option) || fuse_parse_cmdline(&args, &words))
        return 2;
    if (words.show_version) {
        printf("mapped_fs, over libfuse %s\n", fuse_pkgversion());
    } else if (words.show_help) {
        fputs(USAGE, stdout);
        fuse_cmdline_help();
        fuse_lowlevel_help();
    } else if (!share.directory || !words.mountpoint) {
        fputs(USAGE, stderr);
        status = 2;
    } else {
        /* The kernel tests each caller's rights by the owners that it is told, and lets all users ask. */
        status = fuse_opt_add_arg(&args, "-odefault_permissions,allow_other,subtype=mapped_fs")
            || !is_ready(&share) || !is_settled(&share) || serve(&share, &args, &words);
    }
    free(words.mountpoint);
    fuse_opt_free_args(&args);
    return status;
}
