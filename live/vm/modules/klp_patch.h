/* SPDX-License-Identifier: GPL-2.0 */
/*
 * The live patches of klp_box: PATCH_BOX makes one that has new versions of
 * two of its functions.
 */
#include <linux/module.h>
#include <linux/livepatch.h>
#include "klp_box.h"

#define NEW(x)							\
static noinline __noclone int new_box_##x(struct box_req *r)	\
{								\
	int ret;						\
								\
	ret = box_next(r);					\
	barrier();						\
	return ret;						\
}

#define FUNC(x) { .old_name = "box_" #x, .new_func = new_box_##x }

#define PATCH_BOX(one, other)					\
NEW(one)							\
NEW(other)							\
static struct klp_func funcs[] = {				\
	FUNC(one),						\
	FUNC(other),						\
	{ }							\
};								\
static struct klp_object objs[] = {				\
	{ .name = "klp_box", .funcs = funcs },			\
	{ }							\
};								\
static struct klp_patch patch = { .mod = THIS_MODULE, .objs = objs };	\
static int __init fix_init(void)				\
{								\
	return klp_enable_patch(&patch);			\
}								\
static void __exit fix_exit(void)				\
{								\
}								\
module_init(fix_init);						\
module_exit(fix_exit);						\
MODULE_LICENSE("GPL");						\
MODULE_INFO(livepatch, "Y")
