ip link set veth0 address 02:00:00:00:00:01
ip link add link veth0 macsec0 type macsec port 1 cipher gcm-aes-xpn-256 encrypt on
ip macsec add macsec0 tx sa 0 xpn 12884901880 on salt a0a1a2a3a4a5a6a7a8a9aaab ssci 1 key 01 e3c08a8f06c6e3ad95a70557b23f75483ce33021a9c72b7025666204c69c0b72
ip macsec add macsec0 rx sci 0200000000020001
ip macsec add macsec0 rx sci 0200000000020001 sa 0 xpn 12884901880 on salt a0a1a2a3a4a5a6a7a8a9aaab ssci 2 key 01 e3c08a8f06c6e3ad95a70557b23f75483ce33021a9c72b7025666204c69c0b72
