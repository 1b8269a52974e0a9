/* What the harness needs of the inner interface of DPDK 22.11 (ABI 23). The package libdpdk-dev does not install ethdev_driver.h, nor the
 * ixgbe driver's own headers, so the beginnings of three structures are declared here. Nothing else depends on the release. `set_up` in
 * driver.c checks at each start that they fit the library. */
#ifndef DPDK_22_11_H
#define DPDK_22_11_H

#undef RTE_USE_LIBBSD /* the headers have their own strlcpy, so libbsd's headers are not needed */
#include <rte_eal.h>
#include <rte_ethdev.h>
#include <rte_mbuf.h>
#include <rte_mempool.h>
#include <rte_version.h>

#include <stdbool.h>
#include <stdint.h>

#define DPDK_RELEASE "DPDK 22.11."

_Static_assert(RTE_VER_YEAR == 22 && RTE_VER_MONTH == 11, "these structures are those of DPDK 22.11");

/* The beginning of struct rte_eth_dev_data. */
struct device_data {
    char name[RTE_ETH_NAME_MAX_LEN];
    void **rx_queues, **tx_queues;
    uint16_t nb_rx_queues, nb_tx_queues;
    struct {
        uint8_t active, nb_q_per_pool;
        uint16_t def_vmdq_idx, def_pool_q_idx;
    } sriov;
    void *dev_private;
    struct rte_eth_link dev_link;
    struct rte_eth_conf dev_conf;
    uint16_t mtu;
    uint32_t min_rx_buf_size;
    uint64_t rx_mbuf_alloc_failed;
    struct rte_ether_addr *mac_addrs;
    uint64_t mac_pool_sel[RTE_ETH_NUM_RECEIVE_MAC_ADDR];
    struct rte_ether_addr *hash_mac_addrs;
    uint16_t port_id;
    uint8_t promiscuous : 1, scattered_rx : 1, all_multicast : 1, dev_started : 1, lro : 1, dev_configured : 1;
};

/* The beginning of struct rte_eth_dev, of which `rte_eth_dev_allocate` returns one. */
struct rte_eth_dev {
    eth_rx_burst_t rx_pkt_burst;
    eth_tx_burst_t tx_pkt_burst;
    eth_tx_prep_t tx_pkt_prepare;
    eth_rx_queue_count_t rx_queue_count;
    eth_rx_descriptor_status_t rx_descriptor_status;
    eth_tx_descriptor_status_t tx_descriptor_status;
    struct device_data *data;
};

/* The beginning of struct ixgbe_adapter, which begins with struct ixgbe_hw, and as many bytes as hold the rest. */
enum { MAC_OPERATIONS = 84, MAC_82599EB = 2, OTHER_STATE = 0x7424, ADAPTER_REST = 0x30000 };
struct adapter {
    uint8_t *hw_addr;
    void *back;
    struct {
        void (*operations[MAC_OPERATIONS])(void);
        uint32_t type;
    } mac;
    uint8_t other[OTHER_STATE];
    bool rx_bulk_alloc_allowed, rx_vec_allowed;
    uint8_t rest[ADAPTER_REST];
};

struct rte_eth_dev *rte_eth_dev_allocate(const char *name);

int ixgbe_dev_rx_queue_setup(struct rte_eth_dev *, uint16_t, uint16_t, unsigned, const struct rte_eth_rxconf *, struct rte_mempool *);
int ixgbe_dev_tx_queue_setup(struct rte_eth_dev *, uint16_t, uint16_t, unsigned, const struct rte_eth_txconf *);
void ixgbe_set_rx_function(struct rte_eth_dev *);
int ixgbe_dev_rx_queue_start(struct rte_eth_dev *, uint16_t);
int ixgbe_dev_tx_queue_start(struct rte_eth_dev *, uint16_t);
int ixgbe_dev_rx_queue_stop(struct rte_eth_dev *, uint16_t);
int ixgbe_dev_tx_queue_stop(struct rte_eth_dev *, uint16_t);

uint16_t ixgbe_recv_pkts(void *, struct rte_mbuf **, uint16_t);
uint16_t ixgbe_recv_pkts_bulk_alloc(void *, struct rte_mbuf **, uint16_t);
uint16_t ixgbe_recv_pkts_vec(void *, struct rte_mbuf **, uint16_t);
uint16_t ixgbe_recv_pkts_lro_single_alloc(void *, struct rte_mbuf **, uint16_t);
uint16_t ixgbe_recv_pkts_lro_bulk_alloc(void *, struct rte_mbuf **, uint16_t);
uint16_t ixgbe_recv_scattered_pkts_vec(void *, struct rte_mbuf **, uint16_t);
uint16_t ixgbe_xmit_pkts(void *, struct rte_mbuf **, uint16_t);
uint16_t ixgbe_xmit_pkts_simple(void *, struct rte_mbuf **, uint16_t);

#endif
