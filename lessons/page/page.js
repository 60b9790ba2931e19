// Keys, the bar and the boxes of a lesson. Without this script the page has all its text, and folded parts unfold.
(function () {
  'use strict';
  var parts = [].slice.call(document.querySelectorAll('.part'));
  if (!parts.length) return;
  var links = document.querySelectorAll('.parts a');

  // The part at the top of the window.
  function current() {
    var found = 0;
    parts.forEach(function (part, at) { if (part.getBoundingClientRect().top < innerHeight / 10) found = at; });
    return found;
  }

  function show(at) {
    var part = parts[at], heading = part.querySelector('details > summary > h2');
    if (heading) heading.closest('details').open = true;
    part.scrollIntoView();
    part.focus({ preventScroll: true });
    mark(at);
  }

  function mark(at) {
    links.forEach(function (link, each) {
      if (each !== at) return link.removeAttribute('aria-current');
      link.setAttribute('aria-current', 'step');
      link.parentNode.scrollLeft = link.offsetLeft - link.parentNode.offsetLeft - 40;
    });
  }

  // The height of the window above the bar.
  function room() { return innerHeight - document.querySelector('.bar').offsetHeight; }

  function remaining(view) { return view.scrollWidth - view.clientWidth - view.scrollLeft; }

  // The first picture of a part that is in sight and can be moved to the right.
  function movable(part) {
    return [].find.call(part.querySelectorAll('details[open] .view'), function (view) {
      var lanes = view.querySelector('.names').getBoundingClientRect();
      return remaining(view) > 2 && lanes.bottom > room() / 6 && lanes.top < room();
    });
  }

  // Brings the lanes and the verdict of a picture into sight, as far as the window has room below its title, and returns whether they moved.
  function brought(view) {
    var lanes = view.querySelector('.names').getBoundingClientRect(), title = lanes.height * 36 / view.style.getPropertyValue('--lanes');
    var hidden = Math.min(lanes.bottom + 4 - room(), lanes.top + title);
    var before = scrollY;
    if (hidden > 2) scrollBy(0, hidden);
    return Math.abs(scrollY - before) > 1;
  }

  // Goes on: in a picture, further down in a part that is longer than the window, or to the next part.
  function onward() {
    var at = current(), view = movable(parts[at]), below = parts[at].getBoundingClientRect().bottom - room();
    if (view && !brought(view)) view.scrollLeft += remaining(view) < view.clientWidth * 0.9 ? remaining(view) : view.clientWidth * 0.7;
    else if (!view && below > 10) scrollBy(0, Math.min(below + 10, innerHeight * 0.7));
    else if (!view && at + 1 < parts.length) show(at + 1);
  }

  function back() {
    var at = current();
    show(parts[at].getBoundingClientRect().top < -10 || at === 0 ? at : at - 1);
  }

  function follow(rel) {
    var link = document.querySelector('link[rel=' + rel + ']');
    if (link) location.href = link.href;
  }

  document.addEventListener('keydown', function (event) {
    var within = event.target.closest('textarea, button, summary, a, .view');
    if (event.ctrlKey || event.altKey || event.metaKey || event.defaultPrevented) return;
    if (within && within.matches('textarea') && event.key === 'Escape') return parts[current()].focus({ preventScroll: true });
    if (within && within.matches('textarea') && !/^Page/.test(event.key)) return;
    if (within && event.key === ' ' && !within.matches('.view')) return;
    if (within && within.matches('.view') && /^Arrow/.test(event.key)) return;
    var isBack = event.key === 'PageUp' || event.key === ' ' && event.shiftKey;
    if (isBack) back();
    else if (event.key === ' ' || event.key === 'PageDown') onward();
    else if (event.key === 'ArrowLeft' && !event.shiftKey) follow('prev');
    else if (event.key === 'ArrowRight' && !event.shiftKey) follow('next');
    else return;
    event.preventDefault();
  });

  links.forEach(function (link, at) {
    link.addEventListener('click', function (event) { event.preventDefault(); show(at); });
  });
  // After a click the keys go on from the part, and do not press the button again.
  document.querySelectorAll('summary, button').forEach(function (it) {
    it.addEventListener('click', function (event) {
      if (event.detail) (it.closest('.part') || parts[current()]).focus({ preventScroll: true });
    });
  });
  addEventListener('scroll', function () { mark(current()); }, { passive: true });

  var unfold = document.getElementById('unfold');
  unfold.addEventListener('click', function () {
    var folds = document.querySelectorAll('details'), isOpen = unfold.textContent === 'Unfold all';
    folds.forEach(function (fold) { fold.open = isOpen; });
    unfold.textContent = isOpen ? 'Fold all' : 'Unfold all';
  });

  document.querySelectorAll('button.size').forEach(function (button) {
    button.addEventListener('click', function () {
      var isWhole = button.getAttribute('aria-pressed') !== 'true';
      button.setAttribute('aria-pressed', String(isWhole));
      button.closest('p').previousElementSibling.classList.toggle('fitted', isWhole);
    });
  });

  // What is written stays in this browser. The run shows the prediction, and the answer what was written to the question.
  function key(box) { return location.pathname.split('/').pop() + ' ' + box.id; }
  document.querySelectorAll('textarea').forEach(function (box) {
    try { box.value = localStorage.getItem(key(box)) || ''; } catch (error) { /* it is not kept then */ }
    function echo() {
      var names = box.id === 'predict-box' ? ['run', 'picture'] : ['answer'];
      names.forEach(function (name) {
        var line = document.querySelector('[data-part=' + name + '] .echo');
        if (!line) return;
        line.hidden = !box.value.trim();
        line.textContent = (name === 'answer' ? 'You wrote: ' : 'You predicted: ') + box.value.trim();
      });
    }
    box.addEventListener('input', function () {
      try { localStorage.setItem(key(box), box.value); } catch (error) { /* it is not kept then */ }
      echo();
    });
    echo();
  });

  // An address that leads to a folded part, or into one, unfolds it.
  function unfoldAddressed() {
    var target = location.hash.length > 1 && document.getElementById(decodeURIComponent(location.hash.slice(1)));
    if (target && target.closest('details')) target.closest('details').open = true;
    if (target) target.scrollIntoView();
  }
  addEventListener('hashchange', unfoldAddressed);
  unfoldAddressed();
  mark(current());
})();
