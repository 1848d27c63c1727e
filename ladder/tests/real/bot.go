// A bot that walks round a square, on Go's net/http: bot PORT [CERTIFICATE KEY]
package main

import (
	"encoding/json"
	"log"
	"net/http"
	"os"
	"strings"
)

var steps = [4]string{"up", "left", "down", "right"}

func answer(response http.ResponseWriter, request *http.Request) {
	response.Header().Set("Content-Type", "application/json")
	if !strings.HasSuffix(request.URL.Path, "/move") {
		json.NewEncoder(response).Encode(map[string]string{"apiversion": "1"})
		return
	}
	var state struct{ Turn int }
	if err := json.NewDecoder(request.Body).Decode(&state); err != nil {
		http.Error(response, err.Error(), http.StatusBadRequest)
		return
	}
	json.NewEncoder(response).Encode(map[string]string{"move": steps[state.Turn%4]})
}

func main() {
	place := "127.0.0.1:" + os.Args[1]
	http.HandleFunc("/", answer)
	if len(os.Args) > 2 {
		log.Fatal(http.ListenAndServeTLS(place, os.Args[2], os.Args[3], nil))
	}
	log.Fatal(http.ListenAndServe(place, nil))
}
