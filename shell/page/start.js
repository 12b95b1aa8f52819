listen();
load(JSON.parse(find("data").textContent));
