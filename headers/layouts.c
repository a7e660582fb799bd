// Prints the structures and constants of the installed Linux uapi headers that docs/FORMAT.md tells of, one per line:
// `size STRUCT BYTES`, `field STRUCT FIELD OFFSET SIZE SIGN`, `constant NAME NUMBER`. Compiled and run by: python3 headers/check.py
#include <stddef.h>
#include <stdio.h>
#include <linux/netlink.h>
#include <linux/pkt_cls.h>
#include <linux/tc_act/tc_mirred.h>
#include <linux/tc_act/tc_nat.h>
#include <linux/tc_act/tc_tunnel_key.h>

// the fields of the macro tc_gen by themselves
struct common_head { tc_gen; };

#define MEMBER(s, f) (((struct s *)0)->f)
#define SIGN(s, f) ((__typeof__(MEMBER(s, f)))-1 < 1 ? "signed" : "unsigned")
#define SIZE(s) printf("size %s %zu\n", #s, sizeof(struct s));
#define FIELD(s, f) printf("field %s %s %zu %zu %s\n", #s, #f, offsetof(struct s, f), sizeof MEMBER(s, f), SIGN(s, f));
// an array of structures, with the size of one of them
#define ARRAY(s, f) printf("field %s %s %zu %zu struct\n", #s, #f, offsetof(struct s, f), sizeof MEMBER(s, f)[0]);
#define COMMON(s) SIZE(s) FIELD(s, index) FIELD(s, capab) FIELD(s, action) FIELD(s, refcnt) FIELD(s, bindcnt)
#define CONSTANT(c) printf("constant %s %ld\n", #c, (long)(c));

int main(void) {
    SIZE(nlattr) FIELD(nlattr, nla_len) FIELD(nlattr, nla_type)
    SIZE(tc_u32_key) FIELD(tc_u32_key, mask) FIELD(tc_u32_key, val) FIELD(tc_u32_key, off) FIELD(tc_u32_key, offmask)
    COMMON(common_head)
    COMMON(tc_tunnel_key) FIELD(tc_tunnel_key, t_action)
    COMMON(tc_mirred) FIELD(tc_mirred, eaction) FIELD(tc_mirred, ifindex)
    SIZE(tcf_t) FIELD(tcf_t, install) FIELD(tcf_t, lastuse) FIELD(tcf_t, expires) FIELD(tcf_t, firstuse)
    COMMON(tc_nat) FIELD(tc_nat, old_addr) FIELD(tc_nat, new_addr) FIELD(tc_nat, mask) FIELD(tc_nat, flags)
    SIZE(tc_u32_sel) FIELD(tc_u32_sel, flags) FIELD(tc_u32_sel, offshift) FIELD(tc_u32_sel, nkeys)
    FIELD(tc_u32_sel, offmask) FIELD(tc_u32_sel, off) FIELD(tc_u32_sel, offoff) FIELD(tc_u32_sel, hoff)
    FIELD(tc_u32_sel, hmask) ARRAY(tc_u32_sel, keys)

    CONSTANT(NLA_F_NESTED) CONSTANT(NLA_F_NET_BYTEORDER) CONSTANT(NLA_TYPE_MASK) CONSTANT(NLA_ALIGNTO)

    CONSTANT(TC_ACT_UNSPEC) CONSTANT(TC_ACT_OK) CONSTANT(TC_ACT_RECLASSIFY) CONSTANT(TC_ACT_SHOT) CONSTANT(TC_ACT_PIPE)
    CONSTANT(TC_ACT_STOLEN) CONSTANT(TC_ACT_QUEUED) CONSTANT(TC_ACT_REPEAT) CONSTANT(TC_ACT_REDIRECT) CONSTANT(TC_ACT_TRAP)

    CONSTANT(TCA_EGRESS_REDIR) CONSTANT(TCA_EGRESS_MIRROR) CONSTANT(TCA_INGRESS_REDIR) CONSTANT(TCA_INGRESS_MIRROR)
    CONSTANT(TCA_TUNNEL_KEY_ACT_SET) CONSTANT(TCA_TUNNEL_KEY_ACT_RELEASE)

    CONSTANT(TCA_U32_CLASSID) CONSTANT(TCA_U32_HASH) CONSTANT(TCA_U32_LINK) CONSTANT(TCA_U32_DIVISOR)
    CONSTANT(TCA_U32_SEL) CONSTANT(TCA_U32_POLICE) CONSTANT(TCA_U32_ACT) CONSTANT(TCA_U32_INDEV)
    CONSTANT(TCA_U32_PCNT) CONSTANT(TCA_U32_MARK) CONSTANT(TCA_U32_FLAGS) CONSTANT(TCA_U32_PAD)

    CONSTANT(TCA_ACT_KIND) CONSTANT(TCA_ACT_OPTIONS) CONSTANT(TCA_ACT_INDEX) CONSTANT(TCA_ACT_STATS) CONSTANT(TCA_ACT_PAD)
    CONSTANT(TCA_ACT_COOKIE) CONSTANT(TCA_ACT_FLAGS) CONSTANT(TCA_ACT_HW_STATS) CONSTANT(TCA_ACT_USED_HW_STATS)
    CONSTANT(TCA_ACT_IN_HW_COUNT)

    CONSTANT(TCA_MIRRED_TM) CONSTANT(TCA_MIRRED_PARMS) CONSTANT(TCA_MIRRED_PAD)
    CONSTANT(TCA_NAT_PARMS) CONSTANT(TCA_NAT_TM) CONSTANT(TCA_NAT_PAD)

    CONSTANT(TCA_TUNNEL_KEY_TM) CONSTANT(TCA_TUNNEL_KEY_PARMS) CONSTANT(TCA_TUNNEL_KEY_ENC_IPV4_SRC)
    CONSTANT(TCA_TUNNEL_KEY_ENC_IPV4_DST) CONSTANT(TCA_TUNNEL_KEY_ENC_IPV6_SRC) CONSTANT(TCA_TUNNEL_KEY_ENC_IPV6_DST)
    CONSTANT(TCA_TUNNEL_KEY_ENC_KEY_ID) CONSTANT(TCA_TUNNEL_KEY_PAD) CONSTANT(TCA_TUNNEL_KEY_ENC_DST_PORT)
    CONSTANT(TCA_TUNNEL_KEY_NO_CSUM) CONSTANT(TCA_TUNNEL_KEY_ENC_OPTS) CONSTANT(TCA_TUNNEL_KEY_ENC_TOS)
    CONSTANT(TCA_TUNNEL_KEY_ENC_TTL)

    CONSTANT(TC_U32_TERMINAL) CONSTANT(TC_U32_OFFSET) CONSTANT(TC_U32_VAROFFSET) CONSTANT(TC_U32_EAT)
    CONSTANT(TCA_CLS_FLAGS_SKIP_HW) CONSTANT(TCA_CLS_FLAGS_SKIP_SW) CONSTANT(TCA_CLS_FLAGS_IN_HW)
    CONSTANT(TCA_CLS_FLAGS_NOT_IN_HW) CONSTANT(TCA_CLS_FLAGS_VERBOSE)
    CONSTANT(TCA_NAT_FLAG_EGRESS)
    return 0;
}
