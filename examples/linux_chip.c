/* The chip table of the shelf for Linux's PMBus core (drivers/hwmon/pmbus/pmbus_core.c): eight pages, each with VOUT, IOUT, VIN,
 * temperature and their status registers, all Linear11 but VOUT, whose mode the core reads from VOUT_MODE. To be built in a kernel's tree;
 * not part of the tests. docs/LINUX.md says what the core does to latched faults when it probes. */
#include <linux/i2c.h>
#include <linux/module.h>

#include "pmbus.h"

#define SHELF_READS (PMBUS_HAVE_VOUT | PMBUS_HAVE_IOUT | PMBUS_HAVE_VIN | PMBUS_HAVE_TEMP)
#define SHELF_STATUS (PMBUS_HAVE_STATUS_VOUT | PMBUS_HAVE_STATUS_IOUT | PMBUS_HAVE_STATUS_INPUT | PMBUS_HAVE_STATUS_TEMP)
#define SHELF_PAGE (SHELF_READS | SHELF_STATUS)

static struct pmbus_driver_info shelf_info = {
    .pages = 8,
    .format[PSC_VOLTAGE_IN] = linear,
    .format[PSC_VOLTAGE_OUT] = linear,
    .format[PSC_CURRENT_OUT] = linear,
    .format[PSC_TEMPERATURE] = linear,
    .func = {SHELF_PAGE, SHELF_PAGE, SHELF_PAGE, SHELF_PAGE, SHELF_PAGE, SHELF_PAGE, SHELF_PAGE, SHELF_PAGE},
};

static int shelf_probe(struct i2c_client *client) { return pmbus_do_probe(client, &shelf_info); }

static const struct i2c_device_id shelf_id[] = {{"tongsorrel"}, {}};
MODULE_DEVICE_TABLE(i2c, shelf_id);

static struct i2c_driver shelf_driver = {
    .driver = {.name = "tongsorrel"},
    .probe = shelf_probe,
    .id_table = shelf_id,
};
module_i2c_driver(shelf_driver);

MODULE_DESCRIPTION("PMBus shelf with eight supplies");
MODULE_LICENSE("GPL");
MODULE_IMPORT_NS("PMBUS");
