/* The flash of the test, memory from 0x10000000 on, as two physmap devices: 128 MiB with two partitions, and two chips of 16 MiB behind
 * them, which one partition spans; and /proc/physical.
 *
 * /proc/physical has the physical address of each page of a process, whatever kind of mapping the page is in: /proc/PID/pagemap and
 * smaps have nothing of a mapping that Linux made of flash as a whole (VM_PFNMAP). Write the number of the process to it. Then 8 bytes
 * at 8 times the number of a page are its address, or 0 if it has none. */
#include <linux/mm.h>
#include <linux/module.h>
#include <linux/mtd/physmap.h>
#include <linux/platform_device.h>
#include <linux/proc_fs.h>
#include <linux/sched/mm.h>

static struct mtd_partition parts[] = {
	{ .name = "aligned", .offset = 0, .size = 0x4000000 },
	{ .name = "unaligned", .offset = 0x4000000, .size = MTDPART_SIZ_FULL },
};
static struct mtd_partition both[] = { { .name = "chips", .offset = 0, .size = MTDPART_SIZ_FULL } };
static struct physmap_flash_data data[] = {
	{ .width = 4, .probe_type = "map_rom", .parts = parts, .nr_parts = ARRAY_SIZE(parts) },
	{ .width = 4, .probe_type = "map_rom", .parts = both, .nr_parts = ARRAY_SIZE(both) },
};
static struct resource one[] = { DEFINE_RES_MEM(0x10000000, 0x8000000) };
static struct resource two[] = { DEFINE_RES_MEM(0x18000000, 0x1000000), DEFINE_RES_MEM(0x19000000, 0x1000000) };
static struct platform_device *devices[2];
static struct proc_dir_entry *physical;

static ssize_t choose(struct file *file, const char __user *text, size_t length, loff_t *at)
{
	int number, failed = kstrtoint_from_user(text, length, 10, &number);
	struct pid *pid = failed ? NULL : find_get_pid(number);
	struct task_struct *task = pid ? get_pid_task(pid, PIDTYPE_PID) : NULL;

	if (pid)
		put_pid(pid);
	if (!task || file->private_data)
		return -EINVAL;
	file->private_data = get_task_mm(task);
	put_task_struct(task);
	return file->private_data ? length : -ESRCH;
}

static ssize_t address_of(struct file *file, char __user *to, size_t length, loff_t *at)
{
	struct mm_struct *mm = file->private_data;
	spinlock_t *lock;
	pte_t *entry;
	u64 address = 0;

	if (!mm || length != sizeof(address))
		return -EINVAL;
	mmap_read_lock(mm);
	if (!follow_pte(mm, *at / 8 << PAGE_SHIFT, &entry, &lock)) {
		address = (u64)pte_pfn(*entry) << PAGE_SHIFT;
		pte_unmap_unlock(entry, lock);
	}
	mmap_read_unlock(mm);
	return copy_to_user(to, &address, sizeof(address)) ? -EFAULT : sizeof(address);
}

static int leave(struct inode *inode, struct file *file)
{
	if (file->private_data)
		mmput(file->private_data);
	return 0;
}

static const struct proc_ops operations = { .proc_write = choose, .proc_read = address_of, .proc_release = leave };

static int __init add(void)
{
	physical = proc_create("physical", 0600, NULL, &operations);
	devices[0] = platform_device_register_resndata(NULL, "physmap-flash", 0, one, ARRAY_SIZE(one), &data[0], sizeof(data[0]));
	devices[1] = platform_device_register_resndata(NULL, "physmap-flash", 1, two, ARRAY_SIZE(two), &data[1], sizeof(data[1]));
	return !physical ? -ENOMEM : IS_ERR(devices[0]) ? PTR_ERR(devices[0]) : PTR_ERR_OR_ZERO(devices[1]);
}

static void __exit drop(void)
{
	platform_device_unregister(devices[1]);
	platform_device_unregister(devices[0]);
	proc_remove(physical);
}

module_init(add);
module_exit(drop);
MODULE_LICENSE("GPL");
