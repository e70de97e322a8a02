// SPDX-License-Identifier: GPL-2.0
/*
 * klp_box - an ordinary module with functions box_a .. box_d whose nesting and
 * whose place of sleeping a user program chooses by a text.  box_a and box_b
 * are what klp_fix replaces.
 *
 * /proc/klpbox/run      write TEXT: the writer runs it inside its write call
 * /proc/klpbox/onclose  write TEXT: it's run when the file is released
 * /proc/klpbox/kth      write TEXT: the module's kernel thread runs it
 * /proc/klpbox/go       write KEY (0 to 99): lets those who wait for KEY go on
 *
 * TEXT is a list of parts with a comma between; a part is letters, a colon and
 * operations.  The letters a to d are calls, each one nested in the one
 * before; the operations are done in the innermost function:
 *   wNN  wait, interruptible, for key NN
 *   uNN  wait, uninterruptible, for key NN
 *   sNN  stay on the CPU for NN tenths of a second
 *   tNN  the same, nearly all of it in calls through a pointer
 *   rNN  stay on the CPU, but for cond_resched() all the while
 *   mNN  sleep, uninterruptible, for NN tenths of a second
 * Example: "ca:w07,d:s05".
 */
#include <linux/module.h>
#include <linux/proc_fs.h>
#include <linux/kthread.h>
#include <linux/slab.h>
#include <linux/uaccess.h>
#include <linux/wait.h>
#include <linux/delay.h>
#include <linux/ktime.h>
#include "klp_box.h"

static DECLARE_WAIT_QUEUE_HEAD(box_wq);
static atomic_t box_gen[100];

static DECLARE_WAIT_QUEUE_HEAD(kth_wq);
static char kth_text[BOX_TEXT];
static int kth_full;
static struct task_struct *kth;

/* The old versions.  What comes after box_next keeps it from being a jump. */
#define OLD(x)							\
noinline __noclone int box_##x(struct box_req *r)		\
{								\
	int ret;						\
								\
	ret = box_next(r);					\
	barrier();						\
	return ret;						\
}
OLD(a)
OLD(b)
OLD(c)
OLD(d)

static int two(struct box_req *r)
{
	int n = 0, k;

	for (k = 0; k < 2 && *r->p >= '0' && *r->p <= '9'; k++)
		n = n * 10 + (*r->p++ - '0');
	return n;
}

static noinline int tick(int x)
{
	return x + 1;
}
static int (*volatile tick_fn)(int) = tick;

static noinline int box_ops(struct box_req *r)
{
	int ret = 0;

	while (!ret && *r->p && *r->p != ',') {
		char op = *r->p++;
		int n = two(r);

		if (op == 'w' || op == 'u') {
			int was = atomic_read(&box_gen[n]);

			if (op == 'w')
				ret = wait_event_interruptible(box_wq,
					atomic_read(&box_gen[n]) != was);
			else
				wait_event(box_wq,
					atomic_read(&box_gen[n]) != was);
		} else if (op == 's') {
			u64 end = ktime_get_ns() + n * 100000000ull;

			while (ktime_get_ns() < end)
				cpu_relax();
		} else if (op == 'r') {
			u64 end = ktime_get_ns() + n * 100000000ull;

			while (ktime_get_ns() < end) {
				udelay(200);
				cond_resched();
			}
		} else if (op == 't') {
			u64 end = ktime_get_ns() + n * 100000000ull;
			int k, x = 0;

			while (ktime_get_ns() < end)
				for (k = 0; k < 100000; k++)
					x = tick_fn(x);
		} else if (op == 'm') {
			msleep(n * 100);
		} else {
			ret = -EINVAL;
		}
	}
	return ret;
}

noinline __noclone int box_next(struct box_req *r)
{
	int ret;

	switch (*r->p) {
	case 'a': r->p++; ret = box_a(r); break;
	case 'b': r->p++; ret = box_b(r); break;
	case 'c': r->p++; ret = box_c(r); break;
	case 'd': r->p++; ret = box_d(r); break;
	case ':': r->p++; ret = box_ops(r); break;
	default: ret = -EINVAL;
	}
	barrier();
	return ret;
}
EXPORT_SYMBOL_GPL(box_next);

static int box_text(const char *text)
{
	struct box_req r = { .p = text };
	int ret;

	for (;;) {
		ret = box_next(&r);
		if (ret || *r.p != ',')
			return ret;
		r.p++;
	}
}

static ssize_t get_text(char *to, const char __user *buf, size_t n)
{
	if (n >= BOX_TEXT)
		return -E2BIG;
	if (copy_from_user(to, buf, n))
		return -EFAULT;
	while (n && to[n - 1] == '\n')
		n--;
	to[n] = 0;
	return 0;
}

static ssize_t run_write(struct file *f, const char __user *buf, size_t n, loff_t *o)
{
	char text[BOX_TEXT];
	int ret = get_text(text, buf, n);

	if (!ret)
		ret = box_text(text);
	return ret ? ret : n;
}

static ssize_t onclose_write(struct file *f, const char __user *buf, size_t n, loff_t *o)
{
	char *text = kzalloc(BOX_TEXT, GFP_KERNEL);
	int ret;

	if (!text)
		return -ENOMEM;
	ret = get_text(text, buf, n);
	kfree(f->private_data);
	f->private_data = text;
	return ret ? ret : n;
}

static int onclose_release(struct inode *i, struct file *f)
{
	if (f->private_data) {
		box_text(f->private_data);
		kfree(f->private_data);
	}
	return 0;
}

static ssize_t kth_write(struct file *f, const char __user *buf, size_t n, loff_t *o)
{
	int ret;

	if (READ_ONCE(kth_full))
		return -EBUSY;
	ret = get_text(kth_text, buf, n);
	if (ret)
		return ret;
	smp_store_release(&kth_full, 1);
	wake_up_all(&kth_wq);
	return n;
}

static ssize_t go_write(struct file *f, const char __user *buf, size_t n, loff_t *o)
{
	int key, ret = kstrtoint_from_user(buf, n, 10, &key);

	if (ret)
		return ret;
	if (key < 0 || key > 99)
		return -EINVAL;
	atomic_inc(&box_gen[key]);
	wake_up_all(&box_wq);
	return n;
}

static int kth_fn(void *unused)
{
	while (!kthread_should_stop()) {
		wait_event_interruptible(kth_wq, smp_load_acquire(&kth_full) ||
					 kthread_should_stop());
		if (smp_load_acquire(&kth_full)) {
			box_text(kth_text);
			WRITE_ONCE(kth_full, 0);
		}
	}
	return 0;
}

static const struct proc_ops run_ops = { .proc_write = run_write };
static const struct proc_ops onclose_ops = {
	.proc_write = onclose_write, .proc_release = onclose_release };
static const struct proc_ops kth_ops = { .proc_write = kth_write };
static const struct proc_ops go_ops = { .proc_write = go_write };
static struct proc_dir_entry *dir;

static int __init box_init(void)
{
	dir = proc_mkdir("klpbox", NULL);
	if (!dir)
		return -ENOMEM;
	proc_create("run", 0666, dir, &run_ops);
	proc_create("onclose", 0666, dir, &onclose_ops);
	proc_create("kth", 0666, dir, &kth_ops);
	proc_create("go", 0666, dir, &go_ops);
	kth = kthread_run(kth_fn, NULL, "kbox");
	return PTR_ERR_OR_ZERO(kth);
}

static void __exit box_exit(void)
{
	kthread_stop(kth);
	proc_remove(dir);
}
module_init(box_init);
module_exit(box_exit);
MODULE_LICENSE("GPL");
