// Prints what `fast-check build` answers of each module: go run client.go FAST-CHECK REQUEST.json
package main

import ("encoding/json"; "fmt"; "log"; "os"; "os/exec")

type answer struct {
	Ok  *struct{ Program struct{ Body []json.RawMessage } }
	Err []struct{ Code, Message string }
}

func main() {
	out, err := exec.Command(os.Args[1], "build", os.Args[2]).Output()
	if failed, is := err.(*exec.ExitError); is && failed.ExitCode() > 1 { // the request is refused, or memory ran out
		log.Fatal(string(failed.Stderr))
	}
	var modules [][2]json.RawMessage
	if err := json.Unmarshal(out, &modules); err != nil { log.Fatal(err) }
	for _, module := range modules {
		var specifier string
		var found answer
		if err := json.Unmarshal(module[0], &specifier); err != nil { log.Fatal(err) }
		if err := json.Unmarshal(module[1], &found); err != nil { log.Fatal(err) }
		for _, each := range found.Err { fmt.Printf("%s: %s: %s\n", specifier, each.Code, each.Message) }
		if found.Ok != nil { fmt.Printf("%s: %d items\n", specifier, len(found.Ok.Program.Body)) }
	}
}
