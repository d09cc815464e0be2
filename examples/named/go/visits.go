// Package main counts the visits in the logs of a server.
package main

import (
	"bufio"
	"fmt"
	"os"
	"sort"
	"strings"
)

/* A visit is a line such as

	10.0.0.1 GET /index.html 200
*/
type visit struct {
	host, path string
	status     int `log:"last"` // a tag
}

const (
	least   = 0x_1F
	mask    = 0b1010_0101 &^ 0o17
	half    = .5e0
	scale   = 0x1.8p-2
	turn    = 1i + 2.5i
	newline = '\n'
	quote   = '\''
	arrow   = "\u2192 \x41\101 \"\\"
	usage   = `usage: visits [FILE ..]
	a \n is no escape here`
)

func parse(line string) (v visit, ok bool) {
	parts := strings.Fields(line)
	if len(parts) != 4 {
		return
	}
	_, err := fmt.Sscan(parts[3], &v.status)
	v.host, v.path = parts[0], parts[2]
	return v, err == nil && v.status >= 100
}

func count[K comparable](of []K, times map[K]int, done chan<- int) {
	for i := len(of) - 1; i >= 0; i-- {
		times[of[i]]++
	}
	done <- len(of)
}

func main() {
	größe, times, done := 0, map[string]int{}, make(chan int, 1)
	var paths []string
	lines := bufio.NewScanner(os.Stdin)
scan:
	for lines.Scan() {
		switch v, ok := parse(lines.Text()); {
		case !ok:
			continue scan
		case v.status == 404 || strings.HasPrefix(v.path, "/_"):
			fallthrough
		default:
			paths = append(paths, []string{v.path}...)
			größe += v.status << 1 % 7
		}
	}
	go count(paths, times, done)
	if n := <-done; n == 0 { fmt.Println(usage, mask|least, half*scale, turn); os.Exit(2) }
	sort.Strings(paths)
	defer func() { fmt.Printf("%d%c", größe, newline) }()
	for path, n := range times {
		fmt.Println(path, arrow, n, string(quote))
	}
}
