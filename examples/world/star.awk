# Writes a world of 16 routers into this folder: 15 around one in the middle, H, over which 1,024 LSPs go. Four of them, S1 to S4, are
# the heads of 256 tunnels each, to S5 to S15 in turn. star.play brings them up; with -v moves=N it makes N moves of chance then.
function link(file, number, address, peer, id) {
    printf "\n[[link]]\nnumber = %d\naddress = \"%s\"\npeer = \"%s\"\npeer_router = \"%s\"\nlimit = 1000000000\n", number, address, peer, id > file
}
BEGIN {
    play = "star.play"
    hub = "star-h.toml"
    print "router = \"10.0.0.100\"\nlabels = [16, 4111]" > hub
    print "router H star-h.toml" > play
    for (k = 1; k <= 15; k++) {
        link(hub, k, "10.1." k ".100", "10.1." k ".1", "10.0.0." k)
        spoke = "star-" k ".toml"
        printf "router = \"10.0.0.%d\"\nlabels = [16, 1039]\n", k > spoke
        link(spoke, 1, "10.1." k ".1", "10.1." k ".100", "10.0.0.100")
        for (n = 1; k <= 4 && n <= 256; n++) {
            end = "10.0.0." (5 + n % 11)
            printf "\n[[tunnel]]\nnumber = %d\nendpoint = \"%s\"\nroute = [\"10.0.0.100/32\", \"%s/32\"]\n", n, end, end > spoke
            printf "rate = \"447a0000\"\nsetup = 7\nhold = 7\nflags = 6\nname = \"t%d\"\n", n > spoke
        }
        print "router S" k " star-" k ".toml" > play
    }
    for (k = 1; k <= 15; k++) print "wire H " k " S" k " 1" > play
    for (k = 1; k <= 15; k++) print "tick S" k " 0" > play
    print "tick H 0\nrun\nshow H summary" > play
    if (moves) print "seed 1 " moves "\nshow H summary" > play
}
