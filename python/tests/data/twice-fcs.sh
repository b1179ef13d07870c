ip link set eth0 address 02:00:00:00:00:01 up
ip link add link eth0 name eth0.10 type vlan protocol 802.1ad id 10
ip link set eth0.10 up
ip link add link eth0.10 name eth0.10.100 type vlan protocol 802.1q id 100
ip link set eth0.10.100 up
ip link add link eth0.10.100 macsec0 type macsec port 1 cipher gcm-aes-128 encrypt on send_sci on replay on window 0 validate strict encodingsa 0
ip macsec add macsec0 tx sa 0 pn 1 on key 01 ad7a2bd03eac835a6f620fdcb506b345
ip macsec add macsec0 rx sci 0200000000020001
ip macsec add macsec0 rx sci 0200000000020001 sa 0 pn 1 on key 02 000102030405060708090a0b0c0d0e0f
ip link set macsec0 up
ip addr add 10.9.0.1/24 dev macsec0
