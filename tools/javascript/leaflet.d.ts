// What the map page uses of Leaflet 1.7, of which Debian has no types.

declare module "*/leaflet.esm.js" {
  type Place = LatLng | [number, number];
  // What a listener gets depends on its event: a click has a place, a zoom the view to come.
  type Listener = (event: { latlng: LatLng; center: LatLng; zoom: number }) => void;

  interface Point {
    x: number;
    y: number;
  }

  interface LatLng {
    lat: number;
    lng: number;
  }

  interface Bounds {
    getWest(): number;
    getSouth(): number;
    getEast(): number;
    getNorth(): number;
    contains(place: Place): boolean;
    pad(part: number): Bounds;
  }

  interface Renderer {
    readonly isRenderer: true;
  }

  interface Evented {
    on(events: Record<string, Listener>): this;
    on(event: string, listener: Listener): this;
    off(events: Record<string, Listener>): this;
    off(event: string, listener: Listener): this;
  }

  interface Map extends Evented {
    doubleClickZoom: { enable(): void; disable(): void };
    createPane(name: string): HTMLElement;
    getPane(name: string): HTMLElement | undefined;
    getContainer(): HTMLElement;
    getBounds(): Bounds;
    getCenter(): LatLng;
    getZoom(): number;
    getZoomScale(to: number, from: number): number;
    getPixelOrigin(): Point;
    getSize(): Point;
    project(place: Place, zoom: number): Point;
    containerPointToLayerPoint(at: [number, number]): Point;
    latLngToContainerPoint(place: Place): Point;
    setView(place: Place, zoom: number, options?: { reset?: boolean; animate?: boolean }): this;
    fitBounds(
      corners: Place[],
      options: { padding: [number, number]; maxZoom: number; animate: boolean },
    ): this;
    invalidateSize(options: { animate: boolean }): this;
    whenReady(act: () => void): this;
  }

  interface Layer extends Evented {
    addTo(owner: Map | LayerGroup): this;
    remove(): this;
  }

  interface LayerGroup extends Layer {
    clearLayers(): this;
  }

  interface Path extends Layer {
    setLatLngs(places: LatLng[]): this;
  }

  interface Marker extends Layer {
    getElement(): HTMLElement;
    getLatLng(): LatLng;
    setLatLng(place: Place): this;
    setZIndexOffset(offset: number): this;
  }

  interface Style {
    pane?: string;
    renderer?: Renderer;
    interactive?: boolean;
    bubblingMouseEvents?: boolean;
    color?: string;
    weight?: number;
    opacity?: number;
    dashArray?: string | null;
    fill?: boolean;
    fillColor?: string;
    fillOpacity?: number;
    radius?: number;
  }

  interface Icon {
    readonly isIcon: true;
  }

  interface MapOptions {
    crs: object;
    attributionControl: boolean;
    zoomControl: boolean;
    preferCanvas: boolean;
    zoomSnap: number;
    zoomDelta: number;
    minZoom: number;
    maxZoom: number;
  }

  interface Addition {
    addTo(map: Map): this;
  }

  const CRS: { Simple: object };
  const Control: {
    extend(own: { onAdd(): HTMLElement }): new (options: { position: string }) => Addition;
  };
  const control: { zoom(options: { position: string }): Addition };

  const DomUtil: {
    setTransform(element: HTMLElement, offset: Point, scale: number): void;
  };

  function map(container: HTMLElement, options: MapOptions): Map;
  function latLng(lat: number, lng: number): LatLng;
  function point(x: number, y: number): Point;
  function canvas(options: { pane: string; padding: number }): Renderer;
  function layerGroup(): LayerGroup;
  function imageOverlay(
    url: string,
    corners: Place[],
    options: { pane: string; opacity: number; alt: string },
  ): Layer;
  function divIcon(options: { className: string; iconSize: null }): Icon;
  function marker(
    place: Place,
    options: { icon: Icon; draggable: boolean; keyboard: boolean; autoPan: boolean },
  ): Marker;
  function circle(place: Place, style: Style): Path;
  function circleMarker(place: Place, style: Style): Path;
  // A line of one part or of several, and likewise an area.
  function polyline(places: Place[] | Place[][], style: Style): Path;
  function polygon(places: Place[] | Place[][] | Place[][][], style: Style): Path;
}
