ip link set eth0 address 02:00:00:00:00:01 up
ip link add link eth0 macsec0 type macsec port 1 cipher gcm-aes-xpn-256 encrypt on send_sci on replay on window 0 validate strict encodingsa 0
ip macsec add macsec0 tx sa 0 xpn 1 on salt a0a1a2a3a4a5a6a7a8a9aaab ssci 1 key 01 e3c08a8f06c6e3ad95a70557b23f75483ce33021a9c72b7025666204c69c0b72
ip macsec add macsec0 rx sci 0200000000020001
ip macsec add macsec0 rx sci 0200000000020001 sa 0 xpn 1 on salt a0a1a2a3a4a5a6a7a8a9aaab ssci 2 key 02 404142434445464748494a4b4c4d4e4f505152535455565758595a5b5c5d5e5f
ip link set macsec0 up
ip link add link macsec0 name macsec0.100 type vlan protocol 802.1q id 100
ip link set macsec0.100 up
ip addr add 10.9.0.1/24 dev macsec0.100
