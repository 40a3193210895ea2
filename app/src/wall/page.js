// The page grows old while it hangs, opens all rows for paper, and keeps open rows open when it is loaded again. It says all else without this.
(function () {
  var body = document.body, banner = document.getElementById('old'), rows = document.querySelectorAll('details');
  var touched = Number(body.dataset.touched), limit = Number(body.dataset.oldAfter), written = body.classList.contains('old');
  function look() {
    var old = written || Math.abs(Date.now() / 1000 - touched) > limit;
    body.classList.toggle('old', old);
    banner.hidden = !old;
  }
  look();
  setInterval(look, 20000);

  var closed = [];
  addEventListener('beforeprint', function () {
    rows.forEach(function (row) { if (!row.open) { closed.push(row); row.open = true; } });
  });
  addEventListener('afterprint', function () {
    closed.forEach(function (row) { row.open = false; });
    closed = [];
  });

  try {
    var names = JSON.parse(sessionStorage.getItem('open') || '[]');
    rows.forEach(function (row) {
      if (names.indexOf(row.dataset.name) >= 0) row.open = true;
      row.addEventListener('toggle', function () {
        var open = Array.prototype.filter.call(rows, function (row) { return row.open; });
        sessionStorage.setItem('open', JSON.stringify(open.map(function (row) { return row.dataset.name; })));
      });
    });
  } catch (refused) {
    // Where the browser keeps nothing, rows close when the page is loaded again.
  }
})();
